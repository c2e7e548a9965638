MODULE slots
! Teaches: arrays count from 1, and an index outside raises ERR_OUTOFBND (1003).
! What students get wrong: they start at 0, as in C, or count one slot too many: a tray of 4 has the slots 1 to 4.
CONST num size := 4;
VAR num slot{size};
VAR num filled;
PROC main()
FOR i FROM 1 TO size DO
slot{i} := i * i;
filled := filled + 1;
ENDFOR
TPWrite "last slot " \Num:=slot{size};
slot{0} := 9;
TPWrite "filled " \Num:=filled;
ERROR
IF ERRNO = ERR_OUTOFBND TPWrite "no such slot";
TRYNEXT;
ENDPROC
ENDMODULE
