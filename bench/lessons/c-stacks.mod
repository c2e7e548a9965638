MODULE stacks
! Recursion: in how many ways a stack of a given height is made of boxes of height one and two.
CONST num rounds := 10;
VAR num found;

PROC main()
    FOR round FROM 1 TO rounds DO
        found := ways(20);
    ENDFOR
ENDPROC

FUNC num ways(num height)
    VAR num low;
    VAR num high;
    IF height < 2 RETURN 1;
    low := ways(height - 1);
    high := ways(height - 2);
    RETURN low + high;
ENDFUNC
ENDMODULE
