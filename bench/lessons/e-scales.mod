MODULE scales
! Calls: each part is weighed, its weight is held to what the scales can show, and booked to one of twelve boxes.
CONST num rounds := 150;
VAR num boxes{12};
VAR num heaviest;

PROC main()
    VAR num weight;
    FOR round FROM 1 TO rounds DO
        FOR part FROM 1 TO 1000 DO
            weight := weighed(part, round, 37);
            weight := held(weight, 100, 5000);
            book part, weight;
        ENDFOR
    ENDFOR
ENDPROC

FUNC num weighed(num part, num round, num tare)
    RETURN (part * 131 + round) MOD 6011 - tare;
ENDFUNC

FUNC num held(num value, num least, num most)
    IF value < least RETURN least;
    IF value > most RETURN most;
    RETURN value;
ENDFUNC

PROC book(num part, num weight)
    boxes{part MOD 12 + 1} := weight;
    IF weight > heaviest heaviest := weight;
ENDPROC
ENDMODULE
