MODULE raising
! Teaches: RAISE 1 to 90 raises an error of one's own; plain RAISE in an ERROR list drops the routine and hands the number to the caller.
! What students get wrong: RAISE with a number inside an ERROR list, or plain RAISE outside one (17: not here).
PROC main()
pick 3;
TPWrite "done";
ERROR
TPWrite "main: error " \Num:=ERRNO;
TRYNEXT;
ENDPROC
PROC pick(num part)
grip part;
TPWrite "not reached";
ERROR
TPWrite "pick: the gripper is let go";
RAISE;
ENDPROC
PROC grip(num part)
IF part > 2 RAISE 42;
TPWrite "gripped";
ENDPROC
ENDMODULE
