MODULE sums
! Teaches: TPReadNum asks for a number, TPWrite shows one. Run it with --input 3,4,5,0.
! What students get wrong: they expect the number on the line of its question: each line ends by itself.
PROC main()
VAR num n := 1;
VAR num total;
WHILE n <> 0 DO
TPReadNum n, "a number, 0 to end";
total := total + n;
ENDWHILE
TPWrite "sum " \Num:=total;
ENDPROC
ENDMODULE
