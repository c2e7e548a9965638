MODULE halves
! Teaches: a FUNC gives a value back with RETURN, and its call is a whole right side.
! What students get wrong: they write half(n) + 1 (8: no well-formed module), or leave out a RETURN on one way through (ending 4).
PROC main()
VAR num n := 20;
WHILE n > 1 DO
n := half(n);
TPWrite "n=" \Num:=n;
ENDWHILE
ENDPROC
FUNC num half(num x)
IF x MOD 2 = 0 THEN
RETURN x DIV 2;
ELSE
RETURN (x - 1) DIV 2;
ENDIF
ENDFUNC
ENDMODULE
