MODULE grippers
! Errors: a gripper that slips is tried again, a part that is broken is left out, a share among nobody is passed over.
CONST num rounds := 100;
VAR num taken;
VAR num broken;
VAR num slips;
VAR num share;
VAR num force;

PROC main()
    FOR round FROM 1 TO rounds DO
        FOR part FROM 1 TO 1000 DO
            force := 1;
            handle part;
            share := 1000 DIV (part MOD 4);
        ENDFOR
    ENDFOR
ERROR
    TRYNEXT;
ENDPROC

PROC handle(num part)
    grip part;
    taken := (taken + 1) MOD 1000000;
ERROR
    TEST ERRNO
    CASE 11:
        slips := (slips + 1) MOD 1000000;
        force := force + 1;
        RETRY;
    DEFAULT:
        broken := (broken + 1) MOD 1000000;
        RAISE;
    ENDTEST
ENDPROC

PROC grip(num part)
    IF part MOD 7 = 0 RAISE 12;
    IF part MOD 3 = 0 AND force < 2 RAISE 11;
ENDPROC
ENDMODULE
