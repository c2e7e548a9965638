MODULE slip_in_error
! Teaches: an error inside an ERROR list ends the run, whatever lists the callers have.
! What students get wrong: they expect main's list to take it. It is the list of helper that fails, so the run ends there, with main's list unused.
PROC main()
helper;
TPWrite "not reached";
ERROR
TPWrite "not reached either";
TRYNEXT;
ENDPROC
PROC helper()
VAR num n;
n := 1 DIV n;
ERROR
TPWrite "helper's list, ERRNO " \Num:=ERRNO;
n := 2 DIV n;
TRYNEXT;
ENDPROC
ENDMODULE
