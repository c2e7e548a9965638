! slots count from 1
MODULE cleo
VAR num slot{4};
VAR num sum;
PROC main()
    TPWrite "filling";
    FOR i FROM 0 TO 3 DO
        slot{i} := 10 + i * 10;
    ENDFOR
    FOR i FROM 0 TO 3 DO
        sum := sum + slot{i};
    ENDFOR
    TPWrite "sum " \Num:=sum;
ENDPROC
ENDMODULE
