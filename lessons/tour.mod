! A tour of the words of a lesson: names, numbers, strings, signs and comments as a class writes them.
MODULE palletizing
CONST num columns := 4;
CONST num rows := 3;
VAR num slots{12};
VAR num placed := 0;
VAR bool full := FALSE;

PROC main()
    VAR num part;
    WHILE NOT full DO
        TPReadNum part, "weight of the next part in grams, 0 to stop";
        IF part = 0 EXIT;
        TEST part DIV 100
        CASE 0, 1, 2:
            place_part part, 1;
        CASE 3, 4:
            place_part part, 2;
        DEFAULT:
            TPWrite "too heavy: " \Num:=part;
        ENDTEST
        full := placed >= columns * rows;   ! the tray has twelve slots
    ENDWHILE
    TPWrite "tray full after " \Num:=placed;
ERROR
    IF ERRNO = ERR_OUTOFBND TRYNEXT;
    RAISE;
ENDPROC

! Looks for a free slot, row by row.
PROC place_part(num weight, num first_row)
    FOR row FROM first_row TO rows DO
        FOR column FROM 1 TO columns DO
            IF slots{(row - 1) * columns + column} = 0 THEN
                slots{(row - 1) * columns + column} := weight;
                placed := placed + 1;
                RETURN;
            ENDIF
        ENDFOR
    ENDFOR
    RAISE 17;
ENDPROC

FUNC bool is_light(num weight)
    RETURN weight < 250 AND weight > 0 OR weight = -1;
ENDFUNC
ENDMODULE
! Teaches: how the parts of a module work together: constants, an array as a tray, a loop that asks, TEST by weight, a routine that returns from inside two loops, and an error of its own.
! What students get wrong: they leave out RETURN after the part is placed, and it fills every free slot; and they forget that RAISE 17 comes only where no slot was free.
