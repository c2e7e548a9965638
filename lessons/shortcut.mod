MODULE shortcut
! Teaches: AND and OR leave out their right side once the answer is known, so a test can guard what follows it.
! What students get wrong: they put the guard behind what it should guard.
VAR num stock{3};
PROC main()
VAR num i := 4;
IF i <= 3 AND stock{i} = 0 THEN
TPWrite "empty slot";
ELSE
TPWrite "no such slot, and no error";
ENDIF
IF stock{i} = 0 AND i <= 3 TPWrite "not reached";
ERROR
TPWrite "too late: error " \Num:=ERRNO;
TRYNEXT;
ENDPROC
ENDMODULE
