MODULE sign_rules
! Teaches: DIV cuts off towards 0, MOD has the sign of what is divided, and a leading minus covers the first chain of * DIV MOD only.
! What students get wrong: they expect (-7) DIV 2 to be -4, and -2 + 3 to be -5.
PROC main()
TPWrite "(-7) DIV 2 = " \Num:=(-7) DIV 2;
TPWrite "(-7) MOD 2 = " \Num:=(-7) MOD 2;
TPWrite "-2 + 3 = " \Num:=-2 + 3;
TPWrite "-2 * 3 + 1 = " \Num:=-2 * 3 + 1;
ENDPROC
ENDMODULE
