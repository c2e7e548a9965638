MODULE ben
VAR num slot{4};
VAR num sum;
PROC main()
    FOR i FROM 1 TO 4 DO
        slot{i} := i * 10;
    ENDFOR
    FOR i FROM 1 TO 4 DO
        sum := summ + slot{i};
    ENDFOR
    TPWrite "sum " \Num:=sum;
ENDPROC
ENDMODULE
