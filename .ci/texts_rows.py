"""Texts that the built program reads and writes, and what becomes of them. In all texts `~` is a line feed.

An instance in one line has its vertices, its depot and its capacity; its required edges; and the others. An edge has its ends, its cost, its demand if it
is required, and what it costs to serve if that is not its cost; `600 x` before it stands for so many of it. The numbers were worked out by hand.
"""

# What is wrong with a text, and the text. If a line is good, the next key that has to stand is missing.
MALFORMED = """
    key VERTICES is missing | 
    key ARISTAS_REQ is missing | VERTICES 12
    key ARISTAS_REQ is missing | VERTICES:12
    key ARISTAS_REQ is missing | VERTICES : 12 anything
    key ARISTAS_REQ is missing | vErTiCeS : 12 (1,2)
    key ARISTAS_REQ is missing | \t\r\x1a VERTICES\x1a:\r12\x1aé
    key ARISTAS_REQ is missing | VERTICES : 000000000000000012
    line 1 has a number of more than 18 digits | VERTICES : 0000000000000000012
    line 1 has a number of more than 18 digits | VERTICES : 9999999999999999999
    line 1 cannot be read | VERTICES : 0000000000000000012x
    line 1 cannot be read | VERTICES
    line 1 cannot be read | VERTICES :
    line 1 cannot be read | VERTICES : : 12
    line 1 cannot be read | VERTICES 12:
    line 1 cannot be read | VERTICES:12abc
    line 1 cannot be read | VERTICES-12
    line 1 cannot be read | VERTICES : -12
    line 1 cannot be read | VERTICES\x0012
    line 1 cannot be read | VERTICES 12\x00
    line 3 cannot be read | ~~VERTICES (12
    key VERTICES is missing | VERTICES12
    key VERTICES is missing | VERTICES_ : 12
    key VERTICES is missing | VERTICESX : 12
    key VERTICES is missing | X VERTICES : 12
    key VERTICES is missing | - VERTICES : 12
    key VERTICES is missing | \x00VERTICES : 12
    key VERTICES is missing | VEHICULOS : manyé \t\x1a
    key VERTICES is missing | LISTA_ARISTAS_REQ: 7 (1,2)
    key VERTICES stands twice | VERTICES 2~vertices 2
    line 2 cannot be read | VERTICES 2~VERTICES x
    line 2 has a number of more than 18 digits | VERTICES 2~VERTICES 0000000000000000002
    key VERTICES stands twice | VERTICES 2~VERTICES 2~DEPOSITO
    key LISTA_ARISTAS_NOREQ stands twice | LISTA_ARISTAS_NOREQ~LISTA_ARISTAS_REQ~lista_aristas_noreq
    line 1 cannot be read | DEPOSITO x~VERTICES 2~VERTICES 2
    line 1 cannot be read | (1,2)coste5demanda1~LISTA_ARISTAS_REQ
    key ARISTAS_REQ is missing | VERTICES 2~DEPOSITO 1~CAPACIDAD 1
    key CAPACIDAD is missing | VERTICES 2~ARISTAS_REQ 1~DEPOSITO 1
    key DEPOSITO is missing | CAPACIDAD 1~VERTICES 2~ARISTAS_REQ 1
    key VERTICES is missing | ARISTAS_REQ 1~LISTA_ARISTAS_REQ
    ARISTAS_REQ states 3 and the list has 2 | VERTICES 2~ARISTAS_REQ 3~CAPACIDAD 1~DEPOSITO 1~LISTA_ARISTAS_REQ~(1,2)coste1demanda1~(1,2)coste1demanda1
    ARISTAS_REQ states 0 and the list has 1 | VERTICES 2~ARISTAS_REQ 0~CAPACIDAD 1~DEPOSITO 1~LISTA_ARISTAS_REQ~(1,2)coste1demanda1~ARISTAS_NOREQ 1
    ARISTAS_NOREQ states 1 and the list has 0 | VERTICES 2~ARISTAS_REQ 0~CAPACIDAD 1~DEPOSITO 9~ARISTAS_NOREQ 1
    ARISTAS_NOREQ states 0 and the list has 1 | LISTA_ARISTAS_NOREQ~(1,2)coste1~VERTICES 2~ARISTAS_REQ 0~CAPACIDAD 1~DEPOSITO 1~ARISTAS_NOREQ 0
    depot 2 is out of range | VERTICES 1~ARISTAS_REQ 0~CAPACIDAD 1~DEPOSITO 2
    edge 1 has a demand above the capacity | VERTICES 2~ARISTAS_REQ 1~CAPACIDAD 1~DEPOSITO 1~LISTA_ARISTAS_REQ~(1,2)coste1demanda2
    edge 1 has too large a service cost | VERTICES 2~ARISTAS_REQ 1~CAPACIDAD 1~DEPOSITO 1~LISTA_ARISTAS_REQ~(1,2)coste1demanda1servicio1000001
    999999999999999999 vertices are too many | VERTICES 999999999999999999~ARISTAS_REQ 0~CAPACIDAD 1~DEPOSITO 1~
"""

# Whether a line is good or bad, or has a long number, under the list of required edges and under the other list; and the line.
EDGE_LINES = """
    good bad | (1,2)coste5demanda1
    good bad | \t( 1 , 2 )\x1aCOSTE\r5 Demanda 1 \x1a\r
    good bad | (1,2) coste 5 demanda 1 servicio 9
    good bad | (1,2)coste5demanda1SERVICIO0
    bad good | (1,2) coste 5
    good good | (1,2) coste 5 demanda 00
    good bad | (1,2) coste 5 demanda 0 servicio 5
    bad bad | (1,2) coste 5 servicio 5
    bad bad | (1,2) coste 5 servicio 5 demanda 1
    bad bad | (1,2) coste 5 demanda
    bad bad | (1,2) coste 5 demanda 0 servicio
    bad bad | (1,2) coste 5 demanda 0 x
    bad bad | (1,2) coste 5 demanda 0 (1,2)
    bad bad | (1,2) coste 5\x00
    bad bad | (1 2) coste 5 demanda 0
    bad bad | (1,2 coste 5 demanda 0
    bad bad | ((1,2) coste 5 demanda 0
    bad bad | (1,2) costes 5 demanda 0
    bad bad | (1,2) cos te 5 demanda 0
    bad bad | (1,2) coste : 5 demanda 0
    bad bad | (1,-2) coste 5 demanda 0
    long long | (1,2) coste 5 demanda 0000000000000000000
    long bad | (1,2) coste 5 demanda 0000000000000000001
    long long | (0000000000000000001,2) coste 5 demanda 0
    bad bad | (1,2) coste 1234567890123456789 demanda
    good good | x (1,2) coste 5
"""

# What is wrong first with an instance, or `fine`, and the instance.
FAULTS = """
    fine | 2 1 1 | 1 2 5 1 | 1 2 5
    edge 1 has a demand above the capacity | 2 1 1 | 1 2 5 2 | 1 2 5
    fine | 2 1 2 | 1 2 5 2 | 1 2 5
    required edge 1 has demand 0 | 2 1 1 | 1 2 5 0 | 1 2 5
    fine | 2 1 1 | 1 2 1000000 1 5 | 1 2 5
    edge 1 has too large a cost | 2 1 1 | 1 2 1000001 1 5 | 1 2 5
    edge 2 has too large a cost | 2 1 1 | 1 2 5 1 | 1 2 1000001
    fine | 2 1 1 | 1 2 5 1 1000000 | 1 2 5
    edge 1 has too large a service cost | 2 1 1 | 1 2 5 1 1000001 | 1 2 5
    fine | 2 1 1 | 1 2 5 1 0 | 1 2 5
    fine | 2 1 1 | 1 2 5 1 | 1 2 0
    edge 1 is a loop | 2 1 1 | 2 2 5 1 | 1 2 5
    edge 2 is a loop | 2 1 1 | 1 2 5 1 | 1 1 5
    edge 1 has an end out of range | 2 1 1 | 0 2 5 1 | 1 2 5
    edge 2 has an end out of range | 2 1 1 | 1 2 5 1 | 1 3 5
    fine | 3 1 1 | 2 3 5 1 | 1 2 5
    fine | 3 3 1 | 1 2 5 1 | 2 3 5
    edge 1 cannot be reached | 4 1 1 | 3 4 5 1 | 1 2 5
    fine | 4 1 1 | 1 2 5 1 | 3 4 5
    depot 0 is out of range | 2 0 1 | 1 2 5 1 | 1 2 5
    depot 3 is out of range | 2 3 1 | 1 2 5 1 | 1 2 5
    capacity 0 is out of range | 2 1 0 | 1 2 5 1 | 1 2 5
    fine | 2 1 30000 | 1 2 5 1 | 1 2 5
    capacity 30001 is out of range | 2 1 30001 | 1 2 5 1 | 1 2 5
    fine | 1000 1 1 | 1 2 5 1 | 1 2 5
    1001 vertices are too many | 1001 1 1 | 1 2 5 1 | 1 2 5
    1001 vertices are too many | 1001 1 1 | 1 2 5 1, 0 9 5 1 | 1 2 5
    edge 2 has an end out of range | 4 1 1 | 2 2 5 1, 1 9 5 1 | 1 2 5
    edge 2 has an end out of range | 4 1 1 | 1 2 5 1, 1 9 5 1 | 1 9 5
    edge 1 has an end out of range | 4 1 1 | 9 9 5 1, 1 2 5 1 | 2 2 5
    edge 3 is a loop | 4 1 1 | 1 2 1000001 1 5, 1 2 5 1 | 2 2 5
    edge 2 is a loop | 4 1 1 | 1 2 5 1, 2 2 5 1 | 2 2 5
    edge 3 has too large a cost | 4 1 0 | 1 2 5 1, 1 2 5 1 | 1 2 1000001
    edge 1 has too large a cost | 4 1 0 | 1 2 1000001 1 5, 1 2 1000001 1 5 | 1 2 1000001
    capacity 0 is out of range | 4 1 0 | 1 2 5 0, 1 2 5 2 | 1 2 5
    required edge 2 has demand 0 | 4 1 1 | 1 2 5 2, 1 2 5 0 | 1 2 5
    required edge 1 has demand 0 | 4 0 1 | 1 2 5 0, 1 2 5 0 | 1 2 5
    edge 2 has a demand above the capacity | 4 0 1 | 1 2 5 1, 1 2 5 2 | 1 2 5
    depot 5 is out of range | 4 5 1 | 3 4 5 1, 1 2 5 1 1000001 | 1 2 5
    edge 2 cannot be reached | 4 1 1 | 1 2 5 1 1000001, 3 4 5 1 | 1 2 5
    edge 1 cannot be reached | 4 1 1 | 3 4 5 1, 3 4 5 1 | 1 2 5
    edge 2 has too large a service cost | 4 1 1 | 1 2 5 1, 1 2 5 1 1000001 | 1 2 5
    fine | 1 1 1 |  |
    depot 1 is out of range | 0 1 1 |  |
    fine | 2 1 1 |  | 4000 x 1 2 1
    fine | 2 1 1 | 600 x 1 2 1 1 | 3400 x 1 2 1
    4001 edges are too many | 2 1 1 | 600 x 1 2 1 1 | 3401 x 1 2 1
    601 required edges are too many | 2 1 1 | 601 x 1 2 1 1 |
    4001 edges are too many | 2 1 1 | 601 x 1 2 1 1 | 3400 x 1 2 1
    1001 vertices are too many | 1001 1 1 | 601 x 1 2 1 1 | 3400 x 1 2 1
    601 required edges are too many | 1 1 1 | 601 x 1 2 1 1 |
    edge 1 has an end out of range | 1 1 1 | 600 x 1 2 1 1 |
    fine | 2 1 19999 | 600 x 1 2 1 1 |
    24001200 states are too many | 2 1 20000 | 600 x 1 2 1 1 |
    depot 3 is out of range | 2 3 20000 | 600 x 1 2 1 1 |
    24001200 states are too many | 3 3 20000 | 600 x 1 2 1 1 |
    edge 1 cannot be reached | 3 3 1 | 600 x 1 2 1 1 |
"""

# Texts of instances, and how the program writes them: a street in two other layouts, one with a service cost of its own; a file in the layout of the data
# set gdb; a star; lists that change places behind the depot; and no edge at all.
WRITTEN = [
    (
        "vertices : 2\r~aristas_req 1\r~\tComentario café\udcff\r~Capacidad: 1\r~lista_aristas_req :\r~\r~(1,2)COSTE 5 Demanda 1\r~deposito : 1",
        "NOMBRE : carp~COMENTARIO : none~VERTICES : 2~ARISTAS_REQ : 1~ARISTAS_NOREQ : 0~VEHICULOS : 1~CAPACIDAD : 1~"
        "TIPO_COSTES_ARISTAS : EXPLICITOS~COSTE_TOTAL_REQ : 5~LISTA_ARISTAS_REQ :~( 1, 2) coste 5 demanda 1~LISTA_ARISTAS_NOREQ :~DEPOSITO : 1~",
    ),
    (
        "vertices : 2\r~aristas_req 1\r~Capacidad: 1\r~lista_aristas_req :\r~(1,2)COSTE 5 Demanda 1 servicio 9\r~deposito : 2 central\r~END",
        "NOMBRE : carp~COMENTARIO : none~VERTICES : 2~ARISTAS_REQ : 1~ARISTAS_NOREQ : 0~VEHICULOS : 1~CAPACIDAD : 1~"
        "TIPO_COSTES_ARISTAS : EXPLICITOS~COSTE_TOTAL_REQ : 9~LISTA_ARISTAS_REQ :~( 1, 2) coste 5 demanda 1 servicio 9~LISTA_ARISTAS_NOREQ :~"
        "DEPOSITO : 2~",
    ),
    (
        "NOMBRE : sample~COMENTARIO : 22 streets, all required~VERTICES : 12~ARISTAS_REQ : 22~ARISTAS_NOREQ : 0~VEHICULOS : 5~CAPACIDAD : 5~"
        "TIPO_COSTES_ARISTAS : EXPLICITOS~COSTE_TOTAL_REQ : 252~LISTA_ARISTAS_REQ :~( 1, 2)   coste 13   demanda 1~( 1, 4)   coste 17   demanda 1~"
        "( 1, 7)   coste 19   demanda 1~( 1,10)   coste 19   demanda 1~( 1,12)   coste 4   demanda 1~( 2, 3)   coste 18   demanda 1~"
        "( 2, 4)   coste 9   demanda 1~( 2, 9)   coste 2   demanda 1~( 3, 4)   coste 20   demanda 1~( 3, 5)   coste 5   demanda 1~"
        "( 5, 6)   coste 7   demanda 1~( 5,11)   coste 20   demanda 1~( 5,12)   coste 11   demanda 1~( 6, 7)   coste 4   demanda 1~"
        "( 6,12)   coste 3   demanda 1~( 7, 8)   coste 8   demanda 1~( 7,12)   coste 18   demanda 1~( 8,10)   coste 3   demanda 1~"
        "( 8,11)   coste 10   demanda 1~( 9,10)   coste 16   demanda 1~( 9,11)   coste 14   demanda 1~(10,11)   coste 12   demanda 1~"
        "DEPOSITO :   1~",
        "NOMBRE : carp~COMENTARIO : none~VERTICES : 12~ARISTAS_REQ : 22~ARISTAS_NOREQ : 0~VEHICULOS : 5~CAPACIDAD : 5~"
        "TIPO_COSTES_ARISTAS : EXPLICITOS~COSTE_TOTAL_REQ : 252~LISTA_ARISTAS_REQ :~( 1, 2) coste 13 demanda 1~( 1, 4) coste 17 demanda 1~"
        "( 1, 7) coste 19 demanda 1~( 1, 10) coste 19 demanda 1~( 1, 12) coste 4 demanda 1~( 2, 3) coste 18 demanda 1~( 2, 4) coste 9 demanda 1~"
        "( 2, 9) coste 2 demanda 1~( 3, 4) coste 20 demanda 1~( 3, 5) coste 5 demanda 1~( 5, 6) coste 7 demanda 1~( 5, 11) coste 20 demanda 1~"
        "( 5, 12) coste 11 demanda 1~( 6, 7) coste 4 demanda 1~( 6, 12) coste 3 demanda 1~( 7, 8) coste 8 demanda 1~( 7, 12) coste 18 demanda 1~"
        "( 8, 10) coste 3 demanda 1~( 8, 11) coste 10 demanda 1~( 9, 10) coste 16 demanda 1~( 9, 11) coste 14 demanda 1~"
        "( 10, 11) coste 12 demanda 1~LISTA_ARISTAS_NOREQ :~DEPOSITO : 1~",
    ),
    (
        "NOMBRE : star~VERTICES : 7~ARISTAS_REQ : 5~ARISTAS_NOREQ : 1~VEHICULOS : 3~CAPACIDAD : 5~LISTA_ARISTAS_REQ :~( 2, 3) coste 1 demanda 2~"
        "( 2, 4) coste 1 demanda 2~( 2, 5) coste 1 demanda 2~( 2, 6) coste 1 demanda 2~( 2, 7) coste 1 demanda 2~LISTA_ARISTAS_NOREQ :~"
        "( 1, 2) coste 100~DEPOSITO : 1~",
        "NOMBRE : carp~COMENTARIO : none~VERTICES : 7~ARISTAS_REQ : 5~ARISTAS_NOREQ : 1~VEHICULOS : 2~CAPACIDAD : 5~"
        "TIPO_COSTES_ARISTAS : EXPLICITOS~COSTE_TOTAL_REQ : 5~LISTA_ARISTAS_REQ :~( 2, 3) coste 1 demanda 2~( 2, 4) coste 1 demanda 2~"
        "( 2, 5) coste 1 demanda 2~( 2, 6) coste 1 demanda 2~( 2, 7) coste 1 demanda 2~LISTA_ARISTAS_NOREQ :~( 1, 2) coste 100~DEPOSITO : 1~",
    ),
    (
        "DEPOSITO 3~LISTA_ARISTAS_NOREQ~(3,1)coste7demanda0~CAPACIDAD 9~LISTA_ARISTAS_REQ~(1,2)coste5demanda3servicio9~VERTICES 3~"
        "( 2 , 3 ) coste 004 demanda 09~ARISTAS_REQ 2",
        "NOMBRE : carp~COMENTARIO : none~VERTICES : 3~ARISTAS_REQ : 2~ARISTAS_NOREQ : 1~VEHICULOS : 2~CAPACIDAD : 9~"
        "TIPO_COSTES_ARISTAS : EXPLICITOS~COSTE_TOTAL_REQ : 13~LISTA_ARISTAS_REQ :~( 1, 2) coste 5 demanda 3 servicio 9~( 2, 3) coste 4 demanda 9~"
        "LISTA_ARISTAS_NOREQ :~( 3, 1) coste 7~DEPOSITO : 3~",
    ),
    (
        "VERTICES 1~ARISTAS_REQ 0~CAPACIDAD 30000~DEPOSITO 1",
        "NOMBRE : carp~COMENTARIO : none~VERTICES : 1~ARISTAS_REQ : 0~ARISTAS_NOREQ : 0~VEHICULOS : 0~CAPACIDAD : 30000~"
        "TIPO_COSTES_ARISTAS : EXPLICITOS~COSTE_TOTAL_REQ : 0~LISTA_ARISTAS_REQ :~LISTA_ARISTAS_NOREQ :~DEPOSITO : 1~",
    ),
]

# The first bad line of edits of three streets round a far corner, and the edits.
BAD_EDITS = """
    line 1 cannot be read | cost 1 2
    line 1 cannot be read | cost 1~
    line 1 cannot be read | cost~
    line 1 cannot be read | cost  1 2~
    line 2 cannot be read | cost 1 2~ cost 1 2~
    line 1 cannot be read | cost 1 2 ~
    line 1 cannot be read | cost 01 2~
    line 1 cannot be read | cost 1 02~
    line 1 cannot be read | cost 1 -2~
    line 1 cannot be read | cost 1 1000000000000~
    line 1 cannot be read | cost 1000000000000 1~
    line 1 cannot be read | close 1000000000000~
    line 1 cannot be read | Cost 1 2~
    line 1 cannot be read | costs 1 2~
    line 1 cannot be read | cost 1 2x~
    line 1 cannot be read | ~
    line 1 cannot be read | close 1 1~
    line 1 cannot be read | close 4
    line 1 cannot be read | close ~
    line 2 cannot be read | close 4~~
    line 2 cannot be read | close 4~x
    line 1 names a wrong edge | close 1~
    line 1 names a wrong edge | close 3~
    line 1 names a wrong edge | cost 5 1~
    line 1 names a wrong edge | cost 0 1~
    line 1 names a wrong edge | close 0~
    line 1 names a wrong edge | close 5~
    line 1 names a wrong edge | cost 999999999999 1~
    line 1 names a wrong edge | cost 4294967297 1~
    line 1 names a wrong edge | service 4 1~
    line 1 names a wrong edge | demand 4 1~
    line 1 names a wrong edge | service 0 1~
    line 2 names a wrong edge | close 4~close 4~
    line 2 names a wrong edge | close 4~cost 4 1~
    line 2 names a wrong edge | cost 1 2~close 1~xx~
    line 2 cannot be read | cost 1 2~x~close 1~
    edge 4 has too large a cost | cost 4 999990~cost 4 1~
    edge 2 has too large a service cost | service 2 999999999999~service 2 999999999999~
"""

# An instance, edits of it, and its lists of edges then, or what is wrong with the edits. Edges after a closed one get lesser numbers.
EDITED = """
    4 1 5 | 2 3 1 2, 3 4 1 2, 4 2 1 2 | 1 2 10 | | ( 2, 3) coste 1 demanda 2~( 3, 4) coste 1 demanda 2~( 4, 2) coste 1 demanda 2~.~( 1, 2) coste 10~
    4 1 5 | 2 3 1 2, 3 4 1 2, 4 2 1 2 | 1 2 10 | cost 1 2~cost 1 3~service 1 4~demand 1 1~ | ( 2, 3) coste 6 demanda 3 servicio 5~( 3, 4) coste 1 demanda 2~( 4, 2) coste 1 demanda 2~.~( 1, 2) coste 10~
    4 1 5 | 2 3 1 2, 3 4 1 2, 4 2 1 2 | 1 2 10 | demand 3 3~cost 4 5~service 2 2~ | ( 2, 3) coste 1 demanda 2~( 3, 4) coste 1 demanda 2 servicio 3~( 4, 2) coste 1 demanda 5~.~( 1, 2) coste 15~
    4 1 5 | 2 3 1 2 | 1 2 10, 1 3 20 | close 2~ | ( 2, 3) coste 1 demanda 2~.~( 1, 3) coste 20~
    4 1 5 | 2 3 1 2 | 1 2 10, 1 3 20 | close 3~ | ( 2, 3) coste 1 demanda 2~.~( 1, 2) coste 10~
    4 1 5 | 2 3 1 2 | 1 2 10, 1 3 20 | cost 2 7~cost 3 2~close 2~cost 3 3~ | ( 2, 3) coste 1 demanda 2~.~( 1, 3) coste 25~
    4 1 5 | 2 3 1 2 | 1 2 10, 1 3 20 | close 2~cost 3 1000000~ | edge 2 has too large a cost
    4 1 5 | 2 3 1 2 | 1 2 10, 1 3 20 | close 3~close 2~ | edge 1 cannot be reached
"""

# An instance, a plan of it, and what the plan costs or why it is not lawful. A sign and a number are a step on an edge: `+` serves it forward, `-` serves it
# backward, `>` crosses it forward and `<` backward.
VERDICTS = """
    3 1 3 | 1 2 5 1, 2 3 7 1, 1 3 4 1 | | +1 +2 -3 | cost 16
    3 1 3 | 1 2 5 1, 2 3 7 1, 1 3 4 1 | | none | edge 1 is not served
    3 1 3 | 1 2 5 1, 2 3 7 1, 1 3 4 1 | | +1 <1 | edge 2 is not served
    3 1 3 | 1 2 5 1, 2 3 7 1, 1 3 4 1 | | +3 -3 +1 -1 | edge 1 is served twice
    3 1 3 | 1 2 5 1, 2 3 7 1, 1 3 4 1 | | +3, -2 -1 | tour 1 does not start and end at the depot
    3 1 2 | 1 2 3 2, 2 3 4 2 | | +1 <1, >1 +2 <2 <1 | cost 20
    3 1 2 | 1 2 3 2, 2 3 4 2 | | +1 -1 | edge 1 is served twice
    3 1 2 | 1 2 3 2, 2 3 4 2 | | >1 +2 -2 <1 | edge 2 is served twice
    3 1 2 | 1 2 3 2, 2 3 4 2 | | +1 <1, >1 -1 +2 <2 <1 | tour 2 step 3 is broken
    3 1 2 | 1 2 3 2, 2 3 4 2 | | +1 | tour 1 does not start and end at the depot
    3 1 2 | 1 2 3 2, 2 3 4 2 | | -1 | tour 1 does not start and end at the depot
    3 1 2 | 1 2 3 2, 2 3 4 2 | | +2 <2 | tour 1 does not start and end at the depot
    3 1 2 | 1 2 3 2, 2 3 4 2 | | idle, +1 <1, >1, >1 | tour 3 does not start and end at the depot
    3 1 2 | 1 2 3 2, 2 3 4 2 | | idle, >1 +2 <2 <1 | edge 1 is not served
    3 1 2 | 1 2 3 2, 2 3 4 2 | | +1 <1, >1 +2 <2 <2 | tour 2 step 4 is broken
    3 1 2 | 1 2 3 2, 2 3 4 2 | | +1 <1, >1 +3 | tour 2 step 2 is broken
    3 1 2 | 1 2 3 2, 2 3 4 2 | | >1 >1 <2, >9 | tour 1 step 2 is broken
    3 1 2 | 1 2 3 2, 2 3 4 2 | | +1 +2 <2 <1 | tour 1 has load 4
    3 1 2 | 1 2 3 2, 2 3 4 2 | | +1 +2 <2 <1, >1 >1 | tour 2 step 2 is broken
    3 1 2 | 1 2 3 2, 2 3 4 2 | | +1 +2 <2 <1, >1 | tour 2 does not start and end at the depot
    2 1 1 | 1 2 3 1, 1 2 3 1, 1 2 3 1, 1 2 3 1 | | +1 -2, +3 -4 | tour 1 has load 2
    2 1 1 | 1 2 3 1, 1 2 3 1, 1 2 3 1, 1 2 3 1 | | +1 <1, +2 -3, +4 <1 | tour 2 has load 2
    2 1 1 | 1 2 3 1, 1 2 3 1, 1 2 3 1, 1 2 3 1 | | +1 <1, +2 -4 | edge 3 is not served
    2 1 1 | 1 2 3 1, 1 2 3 1, 1 2 3 1, 1 2 3 1 | | +4 -3, +3 -4 | edge 3 is served twice
    4 1 5 | 2 3 1 2, 3 4 1 2, 4 2 1 2 | 1 2 10 | +4 +1 +2 >3 <4, >4 -3 >3 <4 | edge 4 is served and not required
    4 1 5 | 2 3 1 2, 3 4 1 2, 4 2 1 2 | 1 2 10 | >4 +1 +2 >3 <4, >4 -3 >3 <4 | cost 45
    4 1 5 | 2 3 1 2, 3 4 1 2, 4 2 1 2 | 1 2 10 | >4 +1 -1 -4 | edge 4 is served and not required
    4 1 3 | 2 3 1 2, 3 4 1 2, 4 2 1 2 | 1 2 10 | >4 +1 <1 <4, >4 >1 +2 >3 <4, >4 -3 >3 <4 | cost 67
    4 1 3 | 2 3 1 2, 3 4 1 2, 4 2 1 2 | 1 2 10 | >4 +1 +2 >3 <4, >4 -3 >3 <4 | tour 1 has load 4
    4 1 3 | 2 3 1 2, 3 4 1 2, 4 2 1 2 | 1 2 10 | >4 +1 +2 >3 <4 | edge 3 is not served
    3 1 1 | 1 2 1 1 | 1 3 1, 2 3 1 | >1 +3 -2 | edge 2 is served and not required
    3 1 1 | 1 2 1 1 | 1 3 1, 2 3 1 | +1 +3 <2 | edge 3 is served and not required
    3 1 1 | 1 2 1 1 | 1 3 1, 2 3 1 | +1 >3 <2 | cost 3
    1 1 1 | | | idle, >1 | tour 2 step 1 is broken
    3 1 3 | 1 2 5 1 9, 2 3 7 2 0 | | +1 +2 <2 <1 | cost 21
"""

# What a least round costs and how many deadheads it has, or the first edge that is not joined to the depot; and the instance. Rounds: a ring with two dead
# ends; a ring; a street out and back; nothing to serve, without edges and with one; a street with a cheaper way back; two and three streets side by side,
# the third with a cheaper way back; and a ring that hangs at the depot by a street. The others: a ring and a star that another edge joins to the depot; one
# that touches the depot, and one that does not, in both orders; and a second part whose edges are not the first ones.
ROUNDS = """
    27 2 | 5 1 9 | 1 2 1 1, 2 3 1 1, 1 3 1 1, 2 4 6 1, 3 5 6 1 |
    16 0 | 3 1 9 | 1 2 5 1, 2 3 7 1, 1 3 4 1 |
    10 1 | 2 1 9 | 1 2 5 1 |
    0 0 | 1 1 9 |  |
    0 0 | 2 1 9 |  | 1 2 0
    9 2 | 3 1 9 | 1 2 5 1 7 | 2 3 1, 3 1 1
    7 0 | 2 1 9 | 1 2 9 1 3, 2 1 9 1 4 |
    13 1 | 2 1 9 | 1 2 5 1 3, 1 2 4 1, 2 1 5 1 | 1 2 1
    16 1 | 4 4 9 | 1 2 3 1, 2 3 3 1, 3 1 3 1 4, 4 1 2 1 4 |
    edge 1 | 4 1 9 | 2 3 1 1, 3 4 1 1, 4 2 1 1 | 1 2 10
    edge 1 | 7 1 9 | 2 3 1 1, 2 4 1 1, 2 5 1 1, 2 6 1 1, 2 7 1 1 | 1 2 100
    edge 2 | 4 1 9 | 1 2 1 1, 3 4 1 1 | 2 3 1
    edge 1 | 4 1 9 | 3 4 1 1, 1 2 1 1 | 2 3 1
    edge 3 | 6 1 9 | 2 3 1 1, 1 2 1 1, 5 6 1 1, 4 5 1 1 | 3 4 1
"""

# An instance, a plan of it, and its sheet. Services have costs of their own; a load grows from service to service; a tour may have no step.
SHEETS = """
    3 1 4 | 1 2 3 2, 2 3 4 2 9 | | >1 +2 <2 -1 | tour 1 load 4 cost 19~1 drive 1 2 cost 3~2 serve 2 3 cost 9 load 2~3 drive 3 2 cost 4~4 serve 2 1 cost 3 load 4~total tours 1 cost 19~
    2 1 2 | | 1 2 3 | none | total tours 0 cost 0~
    2 1 2 | | 1 2 3 | idle | tour 1 load 0 cost 0~total tours 1 cost 0~
"""

# The seed of a made town, and parts of its text. Another program, which draws by the generator's definition, gave them.
TOWNS = [
    (
        1,
        [
            "VERTICES : 100~ARISTAS_REQ : 81~ARISTAS_NOREQ : 99~",
            "CAPACIDAD : 60~",
            "LISTA_ARISTAS_REQ :~( 1, 2) coste 29 demanda 5~( 2, 3) coste 87 demanda 1~( 7, 8) coste 26 demanda 3~",
            "LISTA_ARISTAS_NOREQ :~( 3, 4) coste 66~( 4, 5) coste 24~",
            "~( 89, 99) coste 45~DEPOSITO : 26~",
        ],
    ),
    (
        7,
        [
            "VERTICES : 100~ARISTAS_REQ : 87~ARISTAS_NOREQ : 93~",
            "CAPACIDAD : 60~",
            "LISTA_ARISTAS_REQ :~( 1, 2) coste 30 demanda 8~( 6, 7) coste 81 demanda 7~( 12, 13) coste 90 demanda 8~",
            "LISTA_ARISTAS_NOREQ :~( 2, 3) coste 61~( 3, 4) coste 31~",
            "DEPOSITO : 44~",
        ],
    ),
]
