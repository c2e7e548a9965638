MODULE tray
! Teaches: an error goes up to the routine that has an ERROR list; RETRY there begins that routine's failed statement again, here the call.
! What students get wrong: they expect RETRY to go on in half, with its old x. But half is dropped; it is called anew, with the new n.
VAR num n := 3;
PROC main()
n := half(n);
TPWrite "n=" \Num:=n;
ERROR
n := 8;
RETRY;
ENDPROC
FUNC num half(num x)
IF x MOD 2 = 1 RAISE 7;
RETURN x DIV 2;
ENDFUNC
ENDMODULE
