MODULE slip_retry
! Teaches: RETRY begins the failed statement again, not the routine that it stands in.
! What students get wrong: they expect main to begin again, so that "filling" is written twice.
VAR num slots;
PROC main()
TPWrite "filling";
TPWrite "each gets " \Num:=12 DIV slots;
ERROR
slots := 4;
RETRY;
ENDPROC
ENDMODULE
