/* Reserved words as crates/text_reserved tells them, written in C: by length, then by the first letter, and then by the letters behind it, which are one
 * number. */
#define AT(word, i) ((uint64_t)(word[i] - 'A'))
#define BEHIND2(word) AT(word, 1)
#define BEHIND3(word) (BEHIND2(word) << 5 | AT(word, 2))
#define BEHIND4(word) (BEHIND3(word) << 5 | AT(word, 3))
#define BEHIND5(word) (BEHIND4(word) << 5 | AT(word, 4))
#define BEHIND6(word) (BEHIND5(word) << 5 | AT(word, 5))
#define BEHIND7(word) (BEHIND6(word) << 5 | AT(word, 6))
#define BEHIND8(word) (BEHIND7(word) << 5 | AT(word, 7))
#define BEHIND9(word) (BEHIND8(word) << 5 | AT(word, 8))

/* Are these letters a reserved word? The first is a capital. */
static int is_reserved(size_t letters, uint8_t first, uint64_t rest) {
    switch (letters) {
    case 2:
        switch (first) {
        case 'D': return rest == BEHIND2("DO");
        case 'I': return rest == BEHIND2("IF");
        case 'O': return rest == BEHIND2("OR");
        case 'T': return rest == BEHIND2("TO");
        default: return 0;
        }
    case 3:
        switch (first) {
        case 'A': return rest == BEHIND3("AND");
        case 'D': return rest == BEHIND3("DIV");
        case 'F': return rest == BEHIND3("FOR");
        case 'M': return rest == BEHIND3("MOD");
        case 'N': return rest == BEHIND3("NOT") || rest == BEHIND3("NUM");
        case 'V': return rest == BEHIND3("VAR");
        case 'X': return rest == BEHIND3("XOR");
        default: return 0;
        }
    case 4:
        switch (first) {
        case 'B': return rest == BEHIND4("BOOL");
        case 'C': return rest == BEHIND4("CASE");
        case 'E': return rest == BEHIND4("ELSE") || rest == BEHIND4("EXIT");
        case 'F': return rest == BEHIND4("FROM") || rest == BEHIND4("FUNC");
        case 'G': return rest == BEHIND4("GOTO");
        case 'P': return rest == BEHIND4("PERS") || rest == BEHIND4("PROC");
        case 'S': return rest == BEHIND4("STEP");
        case 'T': return rest == BEHIND4("TEST") || rest == BEHIND4("THEN") || rest == BEHIND4("TRAP") || rest == BEHIND4("TRUE");
        case 'U': return rest == BEHIND4("UNDO");
        case 'W': return rest == BEHIND4("WITH");
        default: return 0;
        }
    case 5:
        switch (first) {
        case 'A': return rest == BEHIND5("ALIAS");
        case 'C': return rest == BEHIND5("CONST");
        case 'E': return rest == BEHIND5("ENDIF") || rest == BEHIND5("ERROR");
        case 'F': return rest == BEHIND5("FALSE");
        case 'I': return rest == BEHIND5("INOUT");
        case 'L': return rest == BEHIND5("LOCAL");
        case 'R': return rest == BEHIND5("RAISE") || rest == BEHIND5("RETRY");
        case 'W': return rest == BEHIND5("WHILE");
        default: return 0;
        }
    case 6:
        switch (first) {
        case 'E': return rest == BEHIND6("ELSEIF") || rest == BEHIND6("ENDFOR");
        case 'M': return rest == BEHIND6("MODULE");
        case 'N': return rest == BEHIND6("NOVIEW");
        case 'R': return rest == BEHIND6("RECORD") || rest == BEHIND6("RETURN");
        default: return 0;
        }
    case 7:
        switch (first) {
        case 'C': return rest == BEHIND7("CONNECT");
        case 'D': return rest == BEHIND7("DEFAULT");
        case 'E': return rest == BEHIND7("ENDFUNC") || rest == BEHIND7("ENDPROC") || rest == BEHIND7("ENDTEST") || rest == BEHIND7("ENDTRAP");
        case 'T': return rest == BEHIND7("TPWRITE") || rest == BEHIND7("TRYNEXT");
        default: return 0;
        }
    case 8:
        switch (first) {
        case 'B': return rest == BEHIND8("BACKWARD");
        case 'E': return rest == BEHIND8("ENDWHILE");
        case 'N': return rest == BEHIND8("NOSTEPIN");
        case 'R': return rest == BEHIND8("READONLY");
        case 'V': return rest == BEHIND8("VIEWONLY");
        default: return 0;
        }
    case 9:
        switch (first) {
        case 'E': return rest == BEHIND9("ENDMODULE") || rest == BEHIND9("ENDRECORD");
        case 'S': return rest == BEHIND9("SYSMODULE");
        case 'T': return rest == BEHIND9("TPREADNUM");
        default: return 0;
        }
    default: return 0;
    }
}
