MODULE undo_gripper
! Teaches: moving the pointer to main drops every live routine, the innermost first, and each runs its UNDO list. So each routine opens what it closed.
! What students get wrong: they clean up in ERROR, which runs for errors only; or they let main's list open all, and the door opens on a closed gripper.
! Try: rapid trace lessons/undo-gripper.mod --abort-at 7
VAR bool door;
VAR bool gripper;
VAR num parts;
PROC main()
door := TRUE;
TPWrite "door closed";
fill 3;
door := FALSE;
TPWrite "door opened";
UNDO
IF door TPWrite "UNDO: door opened";
door := FALSE;
ENDPROC
PROC fill(num slots)
FOR slot FROM 1 TO slots DO
place slot;
ENDFOR
ENDPROC
PROC place(num slot)
gripper := TRUE;
TPWrite "gripper closed for slot " \Num:=slot;
parts := parts + 1;
gripper := FALSE;
UNDO
IF gripper TPWrite "UNDO: gripper opened at slot " \Num:=slot;
gripper := FALSE;
ENDPROC
ENDMODULE
