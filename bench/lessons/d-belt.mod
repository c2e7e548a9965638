MODULE belt
! States by TEST: a belt that waits, loads, moves, unloads, comes back, and is now and then blocked.
CONST num rounds := 250;
CONST num waiting := 0;
CONST num loading := 1;
CONST num moving := 2;
CONST num unloading := 3;
CONST num returning := 4;
CONST num blocked := 5;
VAR num state;
VAR num ticks;
VAR num place;
VAR num delivered;
VAR num blocks;

PROC main()
    FOR round FROM 1 TO rounds DO
        FOR tick FROM 1 TO 1000 DO
            one_tick;
        ENDFOR
    ENDFOR
ENDPROC

PROC one_tick()
    ticks := (ticks + 1) MOD 9973;
    TEST state
    CASE waiting:
        IF ticks MOD 3 = 0 state := loading;
    CASE loading:
        place := 0;
        state := moving;
    CASE moving:
        place := place + 1;
        IF place = 7 THEN
            state := unloading;
        ELSEIF ticks MOD 13 = 0 THEN
            state := blocked;
        ENDIF
    CASE unloading:
        delivered := (delivered + 1) MOD 1000000;
        state := returning;
    CASE returning:
        place := place - 1;
        IF place = 0 state := waiting;
    DEFAULT:
        blocks := (blocks + 1) MOD 1000000;
        state := moving;
    ENDTEST
ENDPROC
ENDMODULE
