; The tiles: 256 for sprites, then 256 for the background. A tile has 8 by 8 dots, 16 bytes: the low bits of the
; eight lines, then their high bits.

        .exportzp       ball, ball_turns

size            = 16
upper_half      = 256 * size

.segment "CHARS"
tiles:
        .res    size, 0                 ; tile 0 is blank

; The upper left quarter of a ball, with a light that goes round.
.scope turning
first:  .byte   $07, $18, $20, $40, $40, $80, $80, $80
        .byte   $00, $07, $1F, $3F, $3F, $7F, $7F, $7F
        .byte   $07, $18, $20, $40, $58, $98, $80, $80
        .byte   $00, $07, $1F, $3F, $3F, $7F, $7F, $7F
        .byte   $07, $18, $2C, $4C, $40, $80, $80, $80
        .byte   $00, $07, $1F, $3F, $3F, $7F, $7F, $7F
        .byte   $07, $1B, $23, $40, $40, $80, $80, $80
        .byte   $00, $07, $1F, $3F, $3F, $7F, $7F, $7F
end:
        count = (end - first) / size
.endscope
ball            = <((turning::first - tiles) / size)
ball_turns      = <turning::count
        .assert (ball_turns & (ball_turns - 1)) = 0, error, "the number of turns isn't a power of two"

; The letters, each where its character's number says. All dots have the colour 0 or 1, so the high bits are 0.
        .res    upper_half + 'A' * size - (* - tiles), 0
letters:
        .byte   $38, $44, $44, $7C, $44, $44, $44, $00          ; A
        .dword  0, 0
        .byte   $78, $44, $44, $78, $44, $44, $78, $00          ; B
        .dword  0, 0
        .byte   $38, $44, $40, $40, $40, $44, $38, $00          ; C
        .dword  0, 0
        .byte   $78, $44, $44, $44, $44, $44, $78, $00          ; D
        .dword  0, 0
        .byte   $7C, $40, $40, $78, $40, $40, $7C, $00          ; E
        .dword  0, 0
        .byte   $7C, $40, $40, $78, $40, $40, $40, $00          ; F
        .dword  0, 0
        .byte   $38, $44, $40, $5C, $44, $44, $3C, $00          ; G
        .dword  0, 0
        .byte   $44, $44, $44, $7C, $44, $44, $44, $00          ; H
        .dword  0, 0
        .byte   $38, $10, $10, $10, $10, $10, $38, $00          ; I
        .dword  0, 0
        .byte   $1C, $08, $08, $08, $08, $48, $30, $00          ; J
        .dword  0, 0
        .byte   $44, $48, $50, $60, $50, $48, $44, $00          ; K
        .dword  0, 0
        .byte   $40, $40, $40, $40, $40, $40, $7C, $00          ; L
        .dword  0, 0
        .byte   $44, $6C, $54, $54, $44, $44, $44, $00          ; M
        .dword  0, 0
        .byte   $44, $64, $54, $4C, $44, $44, $44, $00          ; N
        .dword  0, 0
        .byte   $38, $44, $44, $44, $44, $44, $38, $00          ; O
        .dword  0, 0
        .byte   $78, $44, $44, $78, $40, $40, $40, $00          ; P
        .dword  0, 0
        .byte   $38, $44, $44, $44, $54, $48, $34, $00          ; Q
        .dword  0, 0
        .byte   $78, $44, $44, $78, $50, $48, $44, $00          ; R
        .dword  0, 0
        .byte   $3C, $40, $40, $38, $04, $04, $78, $00          ; S
        .dword  0, 0
        .byte   $7C, $10, $10, $10, $10, $10, $10, $00          ; T
        .dword  0, 0
        .byte   $44, $44, $44, $44, $44, $44, $38, $00          ; U
        .dword  0, 0
        .byte   $44, $44, $44, $44, $44, $28, $10, $00          ; V
        .dword  0, 0
        .byte   $44, $44, $44, $54, $54, $54, $28, $00          ; W
        .dword  0, 0
        .byte   $44, $44, $28, $10, $28, $44, $44, $00          ; X
        .dword  0, 0
        .byte   $44, $44, $28, $10, $10, $10, $10, $00          ; Y
        .dword  0, 0
        .byte   $7C, $04, $08, $10, $20, $40, $7C, $00          ; Z
        .dword  0, 0
        .assert * - letters = ('Z' - 'A' + 1) * size, error, "there are 26 letters"
