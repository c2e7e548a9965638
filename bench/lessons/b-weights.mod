MODULE weights
! Sorting: parts come off the belt in no order and are put into the tray by weight, each slid down to its place.
CONST num rounds := 10;
CONST num count := 400;
VAR num tray{400};
VAR num moved;

PROC main()
    FOR round FROM 1 TO rounds DO
        fill round;
        sort;
    ENDFOR
ENDPROC

PROC fill(num first)
    VAR num weight;
    weight := first;
    FOR slot FROM 1 TO count DO
        weight := (weight * 421 + 1663) MOD 7875;
        tray{slot} := weight;
    ENDFOR
ENDPROC

PROC sort()
    VAR num part;
    VAR num slot;
    FOR next FROM 2 TO count DO
        part := tray{next};
        slot := next;
        WHILE slot > 1 AND tray{slot - 1} > part DO
            tray{slot} := tray{slot - 1};
            slot := slot - 1;
        ENDWHILE
        tray{slot} := part;
        moved := (moved + next - slot) MOD 1000000;
    ENDFOR
ENDPROC
ENDMODULE
