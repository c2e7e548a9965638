MODULE deepest
! Nests statements and expressions as deep as it may, with every level of operators in each expression: what takes the most stack of a call. Refused by 13, at the end of it all.
VAR num n;
VAR bool b;
VAR num a{3};
PROC main()
IF b THEN
IF b THEN
IF b THEN
IF b THEN
IF b THEN
IF b THEN
IF b THEN
IF b THEN
IF b THEN
IF b THEN
IF b THEN
IF b THEN
IF b THEN
IF b THEN
IF b THEN
IF b THEN
n := f ( b OR b AND n < n + n * ( b OR b AND n < n + n * ( b OR b AND n < n + n * ( b OR b AND n < n + n * ( b OR b AND n < n + n * ( b OR b AND n < n + n * ( b OR b AND n < n + n * ( b OR b AND n < n + n * ( b OR b AND n < n + n * ( b OR b AND n < n + n * ( b OR b AND n < n + n * ( b OR b AND n < n + n * ( b OR b AND n < n + n * ( b OR b AND n < n + n * ( b OR b AND n < n + n * ( b OR b AND n < n + n * ( b OR b AND n < n + n * n ) ) ) ) ) ) ) ) ) ) ) ) ) ) ) ) ) ;
ENDIF
ENDIF
ENDIF
ENDIF
ENDIF
ENDIF
ENDIF
ENDIF
ENDIF
ENDIF
ENDIF
ENDIF
ENDIF
ENDIF
ENDIF
ENDIF
ENDPROC
FUNC num f(num x)
RETURN x;
ENDFUNC
ENDMODULE
