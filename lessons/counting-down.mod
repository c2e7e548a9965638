MODULE counting_down
! Teaches: without STEP a FOR counts by 1, and by -1 where its start is above its end; so it runs at least once.
! What students get wrong: they expect nothing to happen where there are 0 parts, but FOR i FROM 1 TO 0 counts 1, 0. A STEP that is written out never turns: with STEP 1 nothing happens.
PROC main()
VAR num parts;
FOR i FROM 3 TO 1 DO
TPWrite "" \Num:=i;
ENDFOR
TPWrite "go";
FOR i FROM 1 TO parts DO
TPWrite "part " \Num:=i;
ENDFOR
FOR i FROM 1 TO parts STEP 1 DO
TPWrite "never";
ENDFOR
ENDPROC
ENDMODULE
