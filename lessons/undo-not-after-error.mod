MODULE undo_not_after_error
! Teaches: a routine that is dropped by an error does not run its UNDO list; that is what ERROR is for.
! What students get wrong: they put the clean-up into UNDO alone and expect it after an error too: the gripper stays closed.
VAR bool gripper;
PROC main()
place 0;
ERROR
IF gripper TPWrite "main: the gripper is still closed";
TRYNEXT;
ENDPROC
PROC place(num slots)
gripper := TRUE;
TPWrite "each slot gets " \Num:=12 DIV slots;
gripper := FALSE;
UNDO
gripper := FALSE;
TPWrite "UNDO: gripper opened";
ENDPROC
ENDMODULE
