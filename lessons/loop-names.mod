MODULE loop_names
! Teaches: a FOR variable is known in its loop alone. It may be named like module data or the variable of a loop around it, and hides them there; not like a parameter or data of its routine.
! What students get wrong: they use i for a parameter and for a loop, and wonder that the parameter stands still. With FOR i in place of FOR slot the bench refuses that i.
VAR num part := 9;
PROC main()
FOR part FROM 1 TO 2 DO
fill part;
ENDFOR
TPWrite "still " \Num:=part;
ENDPROC
PROC fill(num i)
FOR slot FROM 1 TO 2 DO
TPWrite "slot " \Num:=10 * i + slot;
ENDFOR
ENDPROC
ENDMODULE
