MODULE slip_trynext
! Teaches: an error goes up to the routine that has an ERROR list, and TRYNEXT goes on there.
! What students get wrong: they expect TRYNEXT to go on in place, behind the line that failed. But place has no ERROR list: it is dropped, and main goes on
! behind its call. "booked" is never written.
PROC main()
place 0;
TPWrite "back in main";
ERROR
TPWrite "error " \Num:=ERRNO;
TRYNEXT;
ENDPROC
PROC place(num slots)
VAR num each;
TPWrite "placing";
each := 10 DIV slots;
TPWrite "booked";
ENDPROC
ENDMODULE
