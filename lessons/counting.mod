MODULE counting
! Teaches: FOR works out start, end and step once, and its variable is known in the loop only.
! What students get wrong: they change the end inside the loop and expect fewer rounds; and they ask for the variable behind ENDFOR (try it: 11, unknown name).
PROC main()
VAR num last := 3;
FOR i FROM 1 TO last DO
last := 1;
TPWrite "up " \Num:=i;
ENDFOR
FOR i FROM 10 TO 1 STEP -4 DO
TPWrite "down " \Num:=i;
ENDFOR
FOR i FROM 5 TO 4 STEP 1 DO
TPWrite "never";
ENDFOR
ENDPROC
ENDMODULE
