MODULE sorting_parts
! Teaches: TEST takes the first CASE that matches, and DEFAULT if none does.
! What students get wrong: they expect a run to fall through into the next CASE, as in C.
PROC main()
FOR part FROM 1 TO 5 DO
TEST part
CASE 1, 3:
TPWrite "left box: part " \Num:=part;
CASE 2:
TPWrite "right box: part " \Num:=part;
CASE 3:
TPWrite "never: 3 was taken above";
DEFAULT:
TPWrite "back to the belt: part " \Num:=part;
ENDTEST
ENDFOR
ENDPROC
ENDMODULE
