MODULE retrying
! Teaches: RETRY begins the failed statement again, so what it needs must be put right first.
! What students get wrong: they RETRY without a change, and the run goes on until its steps are spent (ending 5).
VAR num tries;
VAR num divisor;
PROC main()
VAR num share;
share := 12 DIV divisor;
TPWrite "share " \Num:=share;
TPWrite "after tries " \Num:=tries;
ERROR
tries := tries + 1;
IF tries = 3 divisor := 4;
RETRY;
ENDPROC
ENDMODULE
