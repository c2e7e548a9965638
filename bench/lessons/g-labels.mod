MODULE labels
! Output: a label for each part, with its number and its place on the pallet.
CONST num rounds := 100;
VAR num written;

PROC main()
    FOR round FROM 1 TO rounds DO
        FOR part FROM 1 TO 1000 DO
            TPWrite "part " \Num:=part;
            TPWrite "row " \Num:=part DIV 12 - 40;
            IF part MOD 12 = 0 TPWrite "a new pallet";
            written := (written + 2) MOD 1000000;
        ENDFOR
    ENDFOR
ENDPROC
ENDMODULE
