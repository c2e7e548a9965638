MODULE factorials
! Teaches: a routine may call itself; each call has words of its own. A num goes up to 8,388,608, and what is larger raises ERR_OVERFLOW (1001).
! What students get wrong: they forget the way out, and the routine calls itself until a call goes beyond the depth (ending 6).
VAR num n;
PROC main()
VAR num f;
n := 1;
WHILE n < 20 DO
f := factorial(n);
TPWrite "f=" \Num:=f;
n := n + 3;
ENDWHILE
ERROR
IF ERRNO = ERR_OVERFLOW TPWrite "too large for n=" \Num:=n;
RETURN;
ENDPROC
FUNC num factorial(num k)
VAR num rest;
IF k < 2 RETURN 1;
rest := factorial(k - 1);
RETURN k * rest;
ENDFUNC
ENDMODULE
