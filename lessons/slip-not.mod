MODULE slip_not
! Teaches: NOT covers the whole AND chain behind it.
! What students get wrong: they read NOT a AND b as (NOT a) AND b. Here NOT FALSE AND FALSE is NOT (FALSE AND FALSE), which is TRUE.
PROC main()
VAR bool a := FALSE;
VAR bool b := FALSE;
IF NOT a AND b THEN
TPWrite "NOT a AND b holds";
ELSE
TPWrite "NOT a AND b does not hold";
ENDIF
IF (NOT a) AND b THEN
TPWrite "(NOT a) AND b holds";
ELSE
TPWrite "(NOT a) AND b does not hold";
ENDIF
ENDPROC
ENDMODULE
