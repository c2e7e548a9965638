MODULE doors
! Booleans: may the robot move? Doors, a light barrier, a key and two buttons are asked at every turn.
CONST num rounds := 150;
VAR bool door_open;
VAR bool barrier;
VAR bool key_turned := TRUE;
VAR bool may_move;
VAR num moves;
VAR num stops;

PROC main()
    VAR bool left;
    VAR bool right;
    FOR round FROM 1 TO rounds DO
        FOR turn FROM 1 TO 1000 DO
            door_open := turn MOD 5 = 0 OR turn MOD 17 = 3;
            barrier := turn > 400 AND turn < 450 XOR turn MOD 11 = 0;
            left := turn MOD 2 = 0;
            right := turn MOD 3 <> 1;
            may_move := NOT door_open AND left OR key_turned AND (left AND right) AND (NOT barrier);
            IF may_move AND (left OR right) THEN
                moves := (moves + 1) MOD 1000000;
            ELSE
                stops := (stops + 1) MOD 1000000;
            ENDIF
        ENDFOR
    ENDFOR
ENDPROC
ENDMODULE
