! the sum of the four slots
MODULE anna
VAR num slot{4};
VAR num sum;
PROC main()
    fill;
    FOR i FROM 1 TO 4 DO
        sum := sum + slot{i};
    ENDFOR
    TPWrite "sum " \Num:=sum;
ENDPROC
PROC fill()
    FOR i FROM 1 TO 4 DO
        slot{i} := i * 10;
    ENDFOR
ENDPROC
ENDMODULE
