; The maker's sample (document 000, figure 3-59): one sector of a floppy disk, read through an 8271 in I/O space.
; Its names of numbers are numbers here, and its MOVB of a number is written MOVBI. Assembled from address 0 it gives
; the 82 bytes printed there.
;
; Parameter block, at PP: pointer to the buffer at 4, track at 8, sector at 9, the answer at 10.
; Controller, at GC: command and status at 0, parameter and result at 1.

START:  MOVBI   [PP].10,0               ; no answer yet
        MOVI    IX,10                   ; ten tries
        MOVI    GC,0FF00H               ; the controller

RETRY:  JNBT    [GC].0,7,RETRY          ; until it takes a command
        MOVBI   [GC].0,012H             ; read a sector of drive 0
        MOVB    [GC].1,[PP].8           ; its track

        MOVI    CC,08820H               ; port to memory, GA the source, synchronised there, ended by EXT
        WID     8,16                    ; from a byte port into words
        LPD     GB,[PP].4               ; into the buffer
        MOVI    GA,0FF04H               ; from the controller's data

WAIT1:  JNBT    [GC].0,5,WAIT1          ; until it takes the last parameter
        XFER                            ; the transfer starts behind the next instruction
        MOVB    [GC].1,[PP].9           ; the sector, on which the controller begins

        JBT     [GC].1,3,EXIT           ; behind the transfer: the sector is in
        DEC     IX
        JNZ     IX,RETRY                ; or is tried again

EXIT:   JNBT    [GC].0,7,EXIT
        MOVBI   [GC].0,02CH             ; ask for the result
WAIT2:  JNBT    [GC].0,4,WAIT2
        MOVB    [PP].10,[GC].1          ; and hand it on
        SINTR
        HLT
