MODULE shelves
! Loops inside loops: how many parts fit on the shelves of a store room, and a check sum over their places.
CONST num rounds := 60;
CONST num rows := 30;
VAR num parts;
VAR num check_sum;

PROC main()
    FOR round FROM 1 TO rounds DO
        parts := 0;
        FOR shelf FROM 1 TO 20 DO
            FOR row FROM 1 TO rows DO
                FOR slot FROM 10 TO 1 STEP -1 DO
                    parts := parts + 1;
                    check_sum := (check_sum + shelf * row + slot) MOD 10007;
                ENDFOR
            ENDFOR
        ENDFOR
    ENDFOR
ENDPROC
ENDMODULE
