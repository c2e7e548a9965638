MODULE dario
VAR num slot{4};
VAR num sum;
VAR num i := 1;
PROC main()
    WHILE i <= 4 DO
        slot{i} := i * 10;
        i := i + 1;
    ENDWHILE
    i := 1;
    WHILE i <= 4 DO
        sum := sum + slot{i};
    ENDWHILE
    TPWrite "sum " \Num:=sum;
ENDPROC
ENDMODULE
