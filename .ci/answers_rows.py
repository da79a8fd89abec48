"""Files, and what the program answers for them. In all texts `~` is a line feed.

An answer is a code, a blank, and what is written. Parts that have to stand in it are joined by ` .. `, behind its front; without that it is the
whole. The numbers were worked out by hand.
"""
INSTANCES = {
    # Three streets around, for one vehicle.
    "triangle": "VERTICES 3~ARISTAS_REQ 3~CAPACIDAD 3~LISTA_ARISTAS_REQ~(1,2) coste 5 demanda 1~(2,3) coste 7 demanda 1~(1,3) coste 4 demanda 1~DEPOSITO 1~",
    # Two streets in a row, each a load for a vehicle.
    "row": "VERTICES 3~ARISTAS_REQ 2~CAPACIDAD 2~LISTA_ARISTAS_REQ~(1,2) coste 3 demanda 2~(2,3) coste 4 demanda 2~DEPOSITO 1~",
    # One street.
    "street": "VERTICES 2~ARISTAS_REQ 1~CAPACIDAD 1~LISTA_ARISTAS_REQ~(1,2) coste 5 demanda 1~DEPOSITO 1~",
    # Three streets round a far corner, for vehicles that carry one of them.
    "ring": (
        "VERTICES 4~ARISTAS_REQ 3~ARISTAS_NOREQ 1~CAPACIDAD 3~LISTA_ARISTAS_REQ~(2,3) coste 1 demanda 2~(3,4) coste 1 demanda 2~(4,2) coste 1 demanda 2~"
        "LISTA_ARISTAS_NOREQ~(1,2) coste 10~DEPOSITO 1~"
    ),
    # The same streets for vehicles that carry two.
    "wide_ring": (
        "VERTICES 4~ARISTAS_REQ 3~ARISTAS_NOREQ 1~CAPACIDAD 5~LISTA_ARISTAS_REQ~(2,3) coste 1 demanda 2~(3,4) coste 1 demanda 2~(4,2) coste 1 demanda 2~"
        "LISTA_ARISTAS_NOREQ~(1,2) coste 10~DEPOSITO 1~"
    ),
    # Five streets at the end of a long way, of which a vehicle takes two.
    "star": (
        "VERTICES 7~ARISTAS_REQ 5~ARISTAS_NOREQ 1~CAPACIDAD 5~LISTA_ARISTAS_REQ~(2,3) coste 1 demanda 2~(2,4) coste 1 demanda 2~(2,5) coste 1 demanda 2~"
        "(2,6) coste 1 demanda 2~(2,7) coste 1 demanda 2~LISTA_ARISTAS_NOREQ~(1,2) coste 100~DEPOSITO 1~"
    ),
    # Two streets at the end of a long way.
    "fork": (
        "VERTICES 4~ARISTAS_REQ 2~ARISTAS_NOREQ 1~CAPACIDAD 3~LISTA_ARISTAS_REQ~(2,3) coste 1 demanda 1~(2,4) coste 1 demanda 1~LISTA_ARISTAS_NOREQ~"
        "(1,2) coste 100~DEPOSITO 1~"
    ),
    # Four streets side by side, of which no three fit a vehicle.
    "side_by_side": (
        "VERTICES 2~ARISTAS_REQ 4~CAPACIDAD 5~LISTA_ARISTAS_REQ~(1,2) coste 1 demanda 2~(1,2) coste 1 demanda 2~(1,2) coste 1 demanda 2~"
        "(1,2) coste 1 demanda 4~DEPOSITO 1~"
    ),
    # Twenty streets side by side, of which a vehicle takes two.
    "beside": "VERTICES 2~ARISTAS_REQ 20~CAPACIDAD 2~LISTA_ARISTAS_REQ~" + 20 * "(1,2) coste 1 demanda 1~" + "DEPOSITO 1~",
    # Three streets around, with a dead end at two of the corners.
    "ends": (
        "VERTICES 5~ARISTAS_REQ 5~CAPACIDAD 5~LISTA_ARISTAS_REQ~(1,2) coste 1 demanda 1~(2,3) coste 1 demanda 1~(1,3) coste 1 demanda 1~"
        "(2,4) coste 6 demanda 1~(3,5) coste 6 demanda 1~DEPOSITO 1~"
    ),
    # No street.
    "none": "VERTICES 1~ARISTAS_REQ 0~CAPACIDAD 1~DEPOSITO 1~",
    # Twelve junctions and 22 streets, all required, in the layout of the data sets.
    "sample": (
        "NOMBRE : sample~COMENTARIO : 22 streets, all required~VERTICES : 12~ARISTAS_REQ : 22~ARISTAS_NOREQ : 0~VEHICULOS : 5~CAPACIDAD : 5~"
        "TIPO_COSTES_ARISTAS : EXPLICITOS~COSTE_TOTAL_REQ : 252~LISTA_ARISTAS_REQ :~( 1, 2)   coste 13   demanda 1~( 1, 4)   coste 17   demanda 1~"
        "( 1, 7)   coste 19   demanda 1~( 1,10)   coste 19   demanda 1~( 1,12)   coste 4   demanda 1~( 2, 3)   coste 18   demanda 1~"
        "( 2, 4)   coste 9   demanda 1~( 2, 9)   coste 2   demanda 1~( 3, 4)   coste 20   demanda 1~( 3, 5)   coste 5   demanda 1~"
        "( 5, 6)   coste 7   demanda 1~( 5,11)   coste 20   demanda 1~( 5,12)   coste 11   demanda 1~( 6, 7)   coste 4   demanda 1~"
        "( 6,12)   coste 3   demanda 1~( 7, 8)   coste 8   demanda 1~( 7,12)   coste 18   demanda 1~( 8,10)   coste 3   demanda 1~"
        "( 8,11)   coste 10   demanda 1~( 9,10)   coste 16   demanda 1~( 9,11)   coste 14   demanda 1~(10,11)   coste 12   demanda 1~DEPOSITO :   1~"
    ),
    # Two streets between the same vertices, for one vehicle.
    "two_ways": "VERTICES 2~ARISTAS_REQ 2~CAPACIDAD 2~LISTA_ARISTAS_REQ~(1,2) coste 3 demanda 1~(1,2) coste 4 demanda 1~DEPOSITO 1~",
}

CERTIFICATES = {
    "triangle": "carp-certificate 1~cost 16~bound 16~tours 1~tour 3 +1 +2 -3~shores 0~sets 1~prices 1 3 5 7 4~weights 0~nodes 1~price 1~end~",
    # The first street is driven twice more than it has to be.
    "triangle_by_hand": "carp-certificate 1~cost 26~bound 16~tours 1~tour 5 >1 <1 +1 +2 -3~shores 0~sets 1~prices 1 3 5 7 4~weights 0~nodes 1~price 1~end~",
    "row": (
        "carp-certificate 1~cost 20~bound 20~tours 2~tour 2 +1 <1~tour 4 >1 +2 <2 <1~shores 2~shore 2 2 3~shore 1 3~sets 1~prices 1 2 3 4~"
        "weights 2 1 3 2 4~nodes 1~price 1~end~"
    ),
    # A bound below what the prices show.
    "row_low": (
        "carp-certificate 1~cost 20~bound 0~tours 2~tour 2 +1 <1~tour 4 >1 +2 <2 <1~shores 2~shore 2 2 3~shore 1 3~sets 1~prices 1 2 3 4~weights 2 1 3 2 4~"
        "nodes 1~price 1~end~"
    ),
    # A bound above it.
    "row_high": (
        "carp-certificate 1~cost 20~bound 21~tours 2~tour 2 +1 <1~tour 4 >1 +2 <2 <1~shores 2~shore 2 2 3~shore 1 3~sets 1~prices 1 2 3 4~"
        "weights 2 1 3 2 4~nodes 1~price 1~end~"
    ),
    # The numbers of the instance.
    "row_named": (
        "carp-certificate 2~instance 3 2 2 2 4~cost 20~bound 20~tours 2~tour 2 +1 <1~tour 4 >1 +2 <2 <1~shores 2~shore 2 2 3~shore 1 3~sets 1~"
        "prices 1 2 3 4~weights 2 1 3 2 4~nodes 1~price 1~end~"
    ),
    # Two cuts.
    "street": (
        "carp-certificate 1~cost 10~bound 10~tours 1~tour 2 +1 <1~shores 1~shore 1 2~sets 1~prices 1 1 5~weights 1 1 5~nodes 5~cut 1 2~cut 1 1~price 1~"
        "void~price 1~end~"
    ),
    # All pairs are excluded, so that the root is fixed.
    "ring": "carp-certificate 1~cost 67~bound 67~tours 3~tour 4 >4 +1 <1 <4~tour 5 >4 >1 +2 >3 <4~tour 4 >4 -3 >3 <4~shores 0~sets 0~nodes 1~fixed~end~",
    "wide_ring": (
        "carp-certificate 1~cost 45~bound 45~tours 2~tour 5 >4 +1 +2 >3 <4~tour 4 >4 -3 >3 <4~shores 2~shore 3 2 3 4~shore 2 3 4~sets 1~prices 1 3 1 1 1~"
        "weights 2 1 10 2 1~nodes 1~price 1~end~"
    ),
    # The same with a pair at the root of the tree.
    "split": (
        "carp-certificate 1~cost 45~bound 45~tours 2~tour 5 >4 +1 +2 >3 <4~tour 4 >4 -3 >3 <4~shores 2~shore 3 2 3 4~shore 2 3 4~sets 1~prices 1 3 1 1 1~"
        "weights 2 1 10 2 1~nodes 3~pair 1 2~price 1~price 1~end~"
    ),
    # One cut.
    "star": (
        "carp-certificate 1~cost 610~bound 610~tours 3~tour 6 >6 +1 <1 +2 <2 <6~tour 6 >6 +3 <3 +4 <4 <6~tour 4 >6 +5 <5 <6~shores 6~shore 6 2 3 4 5 6 7~"
        "shore 1 3~shore 1 4~shore 1 5~shore 1 6~shore 1 7~sets 2~prices 1 5 201 201 201 201 201~weights 6 1 -100 2 1 3 1 4 1 5 1 6 1~prices 1 5 1 1 1 1 1~"
        "weights 6 1 100 2 1 3 1 4 1 5 1 6 1~nodes 3~cut 1 4~price 1~price 2~end~"
    ),
    # A tour may serve the first street twice.
    "fork": "carp-certificate 1~cost 204~bound 204~tours 1~tour 6 >3 +1 <1 +2 <2 <3~shores 0~sets 1~prices 1 2 102 102~weights 0~nodes 1~price 1~end~",
    # A weight on the group of the first three streets shows the cost.
    "grouped": (
        "carp-certificate 4~instance 2 4 4 5 10~cost 6~bound 6~tours 3~tour 2 +1 -2~tour 2 +3 <3~tour 2 +4 <4~shores 0~sets 1~prices 1 4 2 2 2 2~weights 0~"
        "bonds 1 2 3 1 2 3~nodes 1~price 1~end~"
    ),
    # The same with a lower bound.
    "low": (
        "carp-certificate 4~instance 2 4 4 5 10~cost 6~bound 5~tours 3~tour 2 +1 -2~tour 2 +3 <3~tour 2 +4 <4~shores 0~sets 1~prices 1 4 2 2 2 2~weights 0~"
        "bonds 1 2 3 1 2 3~nodes 1~price 1~end~"
    ),
    # A pair at the root, whose first child has a yes weight.
    "paired": (
        "carp-certificate 4~instance 2 4 4 5 10~cost 6~bound 6~tours 3~tour 2 +1 -2~tour 2 +3 <3~tour 2 +4 <4~shores 0~sets 2~prices 1 4 1 0 2 2~weights 0~"
        "bonds 1 -1 2 1 2~prices 1 4 2 2 2 2~weights 0~bonds 1 2 3 1 2 3~nodes 3~pair 1 2~price 1~price 2~end~"
    ),
    # A group of all three streets. A tour that serves two of them costs 23, and its bond weighs 21, so it pays for 22 + 22 exactly. The room is 1.
    "group_ring": (
        "carp-certificate 4~instance 4 4 3 5 6~cost 45~bound 45~tours 2~tour 5 >4 +1 +2 >3 <4~tour 4 >4 -3 >3 <4~shores 0~sets 1~prices 1 3 22 22 22~"
        "weights 0~bonds 1 21 3 1 2 3~nodes 1~price 1~end~"
    ),
    # A tour for each street, and one group of all three. The set shows 22 + 22 + 22 - 21 = 45, which is what the cheapest plan costs.
    "single_tours": (
        "carp-certificate 4~instance 4 4 3 5 6~cost 67~bound 40~tours 3~tour 4 >4 +1 <1 <4~tour 5 >4 >1 +2 >3 <4~tour 4 >4 -3 >3 <4~shores 0~sets 1~"
        "prices 1 3 22 22 22~weights 0~bonds 1 21 3 1 2 3~nodes 1~price 1~end~"
    ),
    # A second set with a yes weight of 1 on the pair at the root, below which its value is 21 + 22 + 22 - 21 + 1.
    "yes_ring": (
        "carp-certificate 4~instance 4 4 3 5 6~cost 45~bound 45~tours 2~tour 5 >4 +1 +2 >3 <4~tour 4 >4 -3 >3 <4~shores 0~sets 2~prices 1 3 22 22 22~"
        "weights 0~bonds 1 21 3 1 2 3~prices 1 3 21 22 22~weights 0~bonds 2 21 3 1 2 3 -1 2 1 2~nodes 3~pair 1 2~price 2~price 1~end~"
    ),
    # Negative weights on a shore and on a pair, which have nothing that they need.
    "bare_ring": (
        "carp-certificate 4~instance 4 4 3 5 6~cost 45~bound 45~tours 2~tour 5 >4 +1 +2 >3 <4~tour 4 >4 -3 >3 <4~shores 1~shore 1 3~sets 1~"
        "prices 1 3 60 60 60~weights 1 1 -1~bonds 2 21 3 1 2 3 -1 2 1 2~nodes 1~price 1~end~"
    ),
}

# An instance, a certificate, and rows: the line that is changed, what it is changed to, and what `check` answers. None has the number 0.
CHECKED = [
    (
        "row",
        "row",
        """
            0 | | 0 accepted~cost 20~bound 20~
            3 | bound 21 | 2 rejected: node 1 has value 20, not above 20~
            11 | prices 1 2 4 4 | 2 rejected: set 1 at node 1 has a tour at -1~
            12 | weights 2 1 4 2 4 | 2 rejected: set 1 prices edge 1 at -1~
            12 | weights 2 1 3 2 -4 | 2 rejected: set 1 at node 1 has no upper number for shore 2~
            1 | carp-certificate 2~instance 3 2 2 2 4 | 0 accepted~cost 20~bound 20~
            1 | carp-certificate 2~instance 3 2 2 3 4 | 2 rejected: count 4 is 3 and the instance has 2~
            1 | carp-certificate 2~instance 0 2 2 2 4 | 5 bad certificate: line 2 passes a limit~
        """,
    ),
    (
        "row",
        "row",
        """
            1 | carp-certificate 3 | 5 bad certificate: line 1 cannot be read~
            2 | cost 19 | 2 rejected: cost 19 is stated and 20 is true~
            4 | tours 100001 | 5 bad certificate: line 4 passes a limit~
            5 | tour 2 +1 <01 | 5 bad certificate: line 5 cannot be read~
            5 | tour 2000001 +1 <1 | 5 bad certificate: line 5 passes a limit~
            5 | tour 1 +1 | 2 rejected: tour 1 does not start and end at the depot~
            5 | tour 0 | 2 rejected: edge 1 is not served~
            6 | tour 4 >1 +2 <2 <2 | 2 rejected: tour 2 step 4 is broken~
            8 | shore 2 3 2 | 5 bad certificate: line 8 cannot be read~
            8 | shore 2 2 4 | 2 rejected: shore 1 does not fit the instance~
            8 | shore 2 1 2 | 2 rejected: shore 1 does not fit the instance~
            9 | shore 2 2 3 | 5 bad certificate: line 9 cannot be read~
            11 | prices 0 2 3 4 | 5 bad certificate: line 11 passes a limit~
            11 | prices 1 1 3 | 2 rejected: prices 1 do not fit the instance~
            12 | weights 2 2 3 1 4 | 5 bad certificate: line 12 cannot be read~
            12 | weights 1 1 0 | 5 bad certificate: line 12 cannot be read~
            13 | nodes 2 | 5 bad certificate: line 14 cannot be read~
            13 | nodes 3~pair 1 3~price 1 | 2 rejected: node 1 does not fit the instance~
            14 | price 2 | 5 bad certificate: line 14 passes a limit~
        """,
    ),
    (
        "triangle",
        "triangle",
        """
            0 | | 0 accepted~cost 16~bound 16~
            11 | fixed | 2 rejected: node 1 is not fixed~
            11 | void | 2 rejected: node 1 is not void~
            10 | nodes 3~pair 1 2~price 1 | 0 accepted~cost 16~bound 16~
            10 | nodes 3~pair 1 4~price 1 | 2 rejected: node 1 does not fit the instance~
        """,
    ),
    (
        "street",
        "street",
        """
            0 | | 0 accepted~cost 10~bound 10~
            16 | void | 2 rejected: node 5 is not void~
        """,
    ),
    (
        "ring",
        "ring",
        """
            0 | | 0 accepted~cost 67~bound 67~
            3 | bound 68 | 2 rejected: node 1 has value 67, not above 67~
            10 | nodes 3~pair 1 2~void | 2 rejected: node 1 is not lean~
        """,
    ),
    (
        "wide_ring",
        "wide_ring",
        """
            0 | | 0 accepted~cost 45~bound 45~
            5 | tour 5 +4 +1 +2 >3 <4 | 2 rejected: edge 4 is served and not required~
        """,
    ),
    (
        "star",
        "star",
        """
            0 | | 0 accepted~cost 610~bound 610~
            22 | price 2 | 2 rejected: node 2 has value 410, not above 609~
            23 | price 1 | 2 rejected: set 1 at node 3 has no upper number for shore 1~
            21 | cut 1 3 | 2 rejected: node 1 is not lean~
            21 | cut 1 5 | 2 rejected: node 2 has value 510, not above 609~
            16 | prices 1 5 202 201 201 201 201 | 2 rejected: set 1 at node 2 has a tour at -1~
        """,
    ),
    (
        "fork",
        "fork",
        """
            0 | | 2 rejected: set 1 at node 1 has a tour at -100~
        """,
    ),
    (
        "side_by_side",
        "grouped",
        """
            0 | | 0 accepted~cost 6~bound 6~
            13 | bonds 1 3 3 1 2 3 | 2 rejected: node 1 has value 5, not above 5~
            13 | bonds 1 1 3 1 2 3 | 2 rejected: set 1 at node 1 has a tour at -1~
            13 | bonds 1 -2 2 1 2 | 2 rejected: set 1 at node 1 needs the pair 1 2~
            13 | bonds 2 2 3 1 2 3 1 2 4 9 | 2 rejected: node 1 has value 5, not above 5~
            13 | bonds 2 2 3 1 2 3 -1 2 1 4 | 2 rejected: set 1 at node 1 needs the pair 1 4~
        """,
    ),
    (
        "side_by_side",
        "low",
        """
            0 | | 0 accepted~cost 6~bound 5~
            13 | bonds 2 2 3 1 2 3 1 2 4 9 | 0 accepted~cost 6~bound 5~
        """,
    ),
    (
        "side_by_side",
        "grouped",
        """
            1 | carp-certificate 1 | 5 bad certificate: line 2 cannot be read~
            1 | carp-certificate 2 | 5 bad certificate: line 13 cannot be read~
            1 | carp-certificate 3 | 5 bad certificate: line 1 cannot be read~
            13 | bonds 0 | 5 bad certificate: line 13 cannot be read~
            13 | bonds | 5 bad certificate: line 13 cannot be read~
            13 | bonds x | 5 bad certificate: line 13 cannot be read~
            13 | bond 1 2 3 1 2 3 | 5 bad certificate: line 13 cannot be read~
            13 | bonds 1 2 3 1 2 | 5 bad certificate: line 13 cannot be read~
            13 | bonds 1 2 3 1 2 3 4 | 5 bad certificate: line 13 cannot be read~
            13 | bonds 1 02 3 1 2 3 | 5 bad certificate: line 13 cannot be read~
            13 | bonds 1 0 3 1 2 3 | 5 bad certificate: line 13 cannot be read~
            13 | bonds 1 -2 3 1 2 3 | 5 bad certificate: line 13 cannot be read~
            13 | bonds 1 2 3 1 3 2 | 5 bad certificate: line 13 cannot be read~
            13 | bonds 1 2 1 1 | 5 bad certificate: line 13 passes a limit~
            13 | bonds 1 2 3 0 1 2 | 5 bad certificate: line 13 passes a limit~
            13 | bonds 1 2 3 1 2 601 | 5 bad certificate: line 13 passes a limit~
            13 | bonds 1 1000000000000001 3 1 2 3 | 5 bad certificate: line 13 passes a limit~
            13 | bonds 2001 | 5 bad certificate: line 13 passes a limit~
        """,
    ),
    (
        "side_by_side",
        "paired",
        """
            0 | | 0 accepted~cost 6~bound 6~
            13 | bonds 1 -2 2 1 2 | 2 rejected: set 1 at node 2 has a tour at -1~
            13 | bonds 1 1 2 1 2 | 2 rejected: node 2 has value 4, not above 5~
            16 | bonds 1 3 3 1 2 3 | 2 rejected: node 3 has value 5, not above 5~
            20 | price 1 | 2 rejected: set 1 at node 3 needs the pair 1 2~
            13 | bonds 1 -1 2 1 3 | 2 rejected: set 1 at node 2 needs the pair 1 3~
        """,
    ),
    (
        "wide_ring",
        "group_ring",
        """
            0 | | 0 accepted~cost 45~bound 45~
            4 | bound 46 | 2 rejected: node 1 has value 45, not above 45~
            12 | bonds 1 22 3 1 2 3 | 2 rejected: node 1 has value 44, not above 44~
            12 | bonds 1 20 3 1 2 3 | 2 rejected: set 1 at node 1 has a tour at -1~
            12 | bonds 2 20 3 1 2 3 1 3 1 2 3 | 0 accepted~cost 45~bound 45~
            12 | bonds 1 21 2 1 2 | 2 rejected: set 1 at node 1 has a tour at -21~
            12 | bonds 1 21 4 1 2 3 4 | 2 rejected: node 1 has value 24, not above 44~
            12 | bonds 2 21 3 1 2 3 7 2 599 600 | 2 rejected: node 1 has value 31, not above 44~
        """,
    ),
    (
        "wide_ring",
        "yes_ring",
        """
            0 | | 0 accepted~cost 45~bound 45~
            18 | price 1 | 0 accepted~cost 45~bound 45~
            19 | price 2 | 2 rejected: set 2 at node 3 needs the pair 1 2~
            15 | bonds 3 -1 2 1 3 21 3 1 2 3 -1 2 2 3 | 2 rejected: set 2 at node 2 needs the pair 1 3~
            15 | bonds 3 21 3 1 2 3 -1 2 1 2 -1 2 2 3 | 2 rejected: set 2 at node 2 needs the pair 2 3~
        """,
    ),
    (
        "wide_ring",
        "bare_ring",
        """
            0 | | 2 rejected: set 1 at node 1 has no upper number for shore 1~
            12 | weights 0 | 2 rejected: set 1 at node 1 needs the pair 1 2~
        """,
    ),
]

# The end of the certificate of the row of streets, what stands there in its place, and what `check` answers.
ENDS = """
    end~ | | 5 bad certificate: ends before line 15 is complete~
    end~ | e | 5 bad certificate: ends before line 15 is complete~
    end~ | en | 5 bad certificate: ends before line 15 is complete~
    end~ | end | 5 bad certificate: ends before line 15 is complete~
    end~ | end~~ | 5 bad certificate: line 16 cannot be read~
"""

# An instance and its certificate, edits, and what `edit` answers, with what `check` answers behind it if the edits are made. Where three vehicles
# are needed, a group of three streets has no room any more, and a cut at 4 deadheads gives way to its second child.
EDITED = """
    row row | cost 1 2~ | 0 edited edges 2 closed 0~cost 26~bound 20~open gap 6~0 accepted~cost 26~bound 20~
    row row |  | 0 edited edges 2 closed 0~cost 20~bound 20~proven~0 accepted~cost 20~bound 20~
    wide_ring wide_ring | demand 1 2~ | 0 edited edges 4 closed 0~cost 67~bound 45~open gap 22~0 accepted~cost 67~bound 45~
    wide_ring split | demand 1 2~ | 0 edited edges 4 closed 0~cost 67~bound 45~open gap 22~0 accepted~cost 67~bound 45~
    wide_ring split | demand 1 1~ | 0 edited edges 4 closed 0~cost 45~bound 45~proven~0 accepted~cost 45~bound 45~
    wide_ring group_ring |  | 0 edited edges 4 closed 0~cost 45~bound 45~proven~0 accepted~cost 45~bound 45~
    wide_ring group_ring | demand 1 2~ | 0 edited edges 4 closed 0~cost 67~bound 45~open gap 22~0 accepted~cost 67~bound 45~
    wide_ring group_ring | demand 1 3~demand 2 2~ | 0 edited edges 4 closed 0~cost 67~bound 66~open gap 1~0 accepted~cost 67~bound 66~
    star star | demand 1 1~ | 0 edited edges 6 closed 0~cost 610~bound 610~proven~0 accepted~cost 610~bound 610~
    wide_ring wide_ring | close 4~ | 11 bad edit: edge 1 cannot be reached~
    wide_ring wide_ring | demand 1 4~ | 11 bad edit: edge 1 has a demand above the capacity~
    wide_ring wide_ring | cost 4 999991~ | 11 bad edit: edge 4 has too large a cost~
    wide_ring wide_ring | service 2 1000000~ | 11 bad edit: edge 2 has too large a service cost~
    wide_ring wide_ring | close 1~ | 11 bad edit: line 1 names a wrong edge~
    wide_ring wide_ring | cost 1 0~close 5~ | 11 bad edit: line 2 names a wrong edge~
    wide_ring wide_ring | close 4~cost 4 1~ | 11 bad edit: line 2 names a wrong edge~
    wide_ring wide_ring | close 4~close 4~ | 11 bad edit: line 2 names a wrong edge~
    wide_ring wide_ring | service 4 1~ | 11 bad edit: line 1 names a wrong edge~
    wide_ring wide_ring | demand 4 1~ | 11 bad edit: line 1 names a wrong edge~
    wide_ring wide_ring | cost 0 1~ | 11 bad edit: line 1 names a wrong edge~
    wide_ring wide_ring | cost 1~ | 11 bad edit: line 1 cannot be read~
    wide_ring wide_ring | cost 1 2 | 11 bad edit: line 1 cannot be read~
    wide_ring wide_ring | cost  1 2~ | 11 bad edit: line 1 cannot be read~
    wide_ring wide_ring | cost 01 2~ | 11 bad edit: line 1 cannot be read~
    wide_ring wide_ring | cost 1 0000000000002~ | 11 bad edit: line 1 cannot be read~
    wide_ring wide_ring | cost 1 2~~ | 11 bad edit: line 2 cannot be read~
    wide_ring wide_ring | Cost 1 2~ | 11 bad edit: line 1 cannot be read~
"""

# Texts of instances, and what `solve` answers by one turn.
SOLVED = """
    0 instance .. ~cost 0~bound 0~turns .. ~proven~tours 0~ | VERTICES 1~ARISTAS_REQ 0~CAPACIDAD 1~DEPOSITO 1
    0 instance .. ~cost 10~bound 10~turns .. ~proven~tours 1~ | vertices : 2\r~aristas_req 1\r~\tComentario café\r~Capacidad: 1\r~lista_aristas_req :\r~\r~(1,2)COSTE 5 Demanda 1\r~deposito : 1
    0 instance .. ~cost 10~bound 10~turns .. ~proven~tours 1~ | vertices : 2\r~aristas_req 1\r~Capacidad: 1\r~lista_aristas_req :\r~(1,2)COSTE 5 Demanda 1\r~deposito : 1 central~END~
    0 instance .. ~cost 10~bound 10~turns .. ~proven~tours 1~ | VERTICES 2~ARISTAS_REQ 1~CAPACIDAD 1~LISTA_ARISTAS_REQ~(1,2) coste 5 demanda 1~DEPOSITO 1
    0 instance .. ~cost 10~bound 10~turns .. ~proven~tours 1~ | NOMBRE : carp~COMENTARIO : none~VERTICES : 2~ARISTAS_REQ : 1~ARISTAS_NOREQ : 0~VEHICULOS : 2~CAPACIDAD : 1~TIPO_COSTES_ARISTAS : EXPLICITOS~COSTE_TOTAL_REQ : 5~LISTA_ARISTAS_REQ :~( 1, 2) coste 5 demanda 1~LISTA_ARISTAS_NOREQ :~DEPOSITO : 1~
    0 instance .. ~cost 2~bound 2~turns .. ~proven~tours 1~ | VERTICES 4~ARISTAS_REQ 1~ARISTAS_NOREQ 1~CAPACIDAD 1~LISTA_ARISTAS_REQ~(1,2) coste 1 demanda 1~LISTA_ARISTAS_NOREQ~(3,4) coste 1~DEPOSITO 1
    0 instance .. ~cost 2000000~bound 2000000~turns .. ~proven~tours 1~ | VERTICES 2~ARISTAS_REQ 1~CAPACIDAD 1~LISTA_ARISTAS_REQ~(1,2) coste 1000000 demanda 1~DEPOSITO 1
    0 instance .. ~cost 14~bound 14~turns .. ~proven~tours 1~ | VERTICES 2~ARISTAS_REQ 1~CAPACIDAD 1~LISTA_ARISTAS_REQ~(1,2) coste 5 demanda 1 servicio 9~DEPOSITO 1
    0 instance .. ~cost 5~bound 5~turns .. ~proven~tours 1~ | VERTICES 2~ARISTAS_REQ 1~CAPACIDAD 1~LISTA_ARISTAS_REQ~(1,2) coste 5 demanda 1 servicio 0~DEPOSITO 1
    0 instance .. ~cost 16~bound 16~turns .. ~proven~tours 1~ | VERTICES 3~ARISTAS_REQ 3~CAPACIDAD 3~LISTA_ARISTAS_REQ~(1,2) coste 5 demanda 1~(2,3) coste 7 demanda 1~(1,3) coste 4 demanda 1~DEPOSITO 1
    0 instance .. ~cost 20~bound 20~turns .. ~proven~tours 2~ | VERTICES 3~ARISTAS_REQ 2~CAPACIDAD 2~LISTA_ARISTAS_REQ~(1,2) coste 3 demanda 2~(2,3) coste 4 demanda 2~DEPOSITO 1
    0 instance .. ~cost 67~bound 67~turns .. ~proven~tours 3~ | VERTICES 4~ARISTAS_REQ 3~ARISTAS_NOREQ 1~CAPACIDAD 3~LISTA_ARISTAS_REQ~(2,3) coste 1 demanda 2~(3,4) coste 1 demanda 2~(4,2) coste 1 demanda 2~LISTA_ARISTAS_NOREQ~(1,2) coste 10~DEPOSITO 1
    0 instance .. ~cost 45~bound 45~turns .. ~proven~tours 2~ | VERTICES 4~ARISTAS_REQ 3~ARISTAS_NOREQ 1~CAPACIDAD 5~LISTA_ARISTAS_REQ~(2,3) coste 1 demanda 2~(3,4) coste 1 demanda 2~(4,2) coste 1 demanda 2~LISTA_ARISTAS_NOREQ~(1,2) coste 10~DEPOSITO 1
"""

# Texts that are no instances, and what is wrong with them.
REFUSED = """
    line 1 cannot be read | VERTICES two
    key VERTICES is missing |
    key VERTICES stands twice | VERTICES 2~VERTICES 2
    ARISTAS_REQ states 3 and the list has 2 | VERTICES 2~ARISTAS_REQ 3~CAPACIDAD 1~LISTA_ARISTAS_REQ~(1,2) coste 5 demanda 1~(1,2) coste 5 demanda 1~DEPOSITO 1
    line 2 has a number of more than 18 digits | ~VERTICES 1234567890123456789
    key ARISTAS_REQ is missing | DEPOSITO 1~CAPACIDAD 1~VERTICES 1
    ARISTAS_NOREQ states 1 and the list has 0 | VERTICES 2~ARISTAS_REQ 0~ARISTAS_NOREQ 1~CAPACIDAD 1~DEPOSITO 1
    key LISTA_ARISTAS_REQ stands twice | LISTA_ARISTAS_REQ~lista_aristas_req
    edge 1 has an end out of range | VERTICES 2~ARISTAS_REQ 1~CAPACIDAD 1~LISTA_ARISTAS_REQ~(1,3) coste 5 demanda 1~DEPOSITO 1
    edge 1 is a loop | VERTICES 2~ARISTAS_REQ 1~CAPACIDAD 1~LISTA_ARISTAS_REQ~(2,2) coste 5 demanda 1~DEPOSITO 1
    edge 1 has too large a cost | VERTICES 2~ARISTAS_REQ 1~CAPACIDAD 1~LISTA_ARISTAS_REQ~(1,2) coste 1000001 demanda 1~DEPOSITO 1
    required edge 1 has demand 0 | VERTICES 2~ARISTAS_REQ 1~CAPACIDAD 1~LISTA_ARISTAS_REQ~(1,2) coste 5 demanda 0~DEPOSITO 1
    edge 1 has a demand above the capacity | VERTICES 2~ARISTAS_REQ 1~CAPACIDAD 1~LISTA_ARISTAS_REQ~(1,2) coste 5 demanda 2~DEPOSITO 1
    edge 2 cannot be reached | VERTICES 4~ARISTAS_REQ 2~CAPACIDAD 1~LISTA_ARISTAS_REQ~(1,2) coste 1 demanda 1~(3,4) coste 1 demanda 1~DEPOSITO 1
    edge 1 has too large a service cost | VERTICES 2~ARISTAS_REQ 1~CAPACIDAD 1~LISTA_ARISTAS_REQ~(1,2) coste 5 demanda 1 servicio 1000001~DEPOSITO 1
    1001 vertices are too many | VERTICES 1001~ARISTAS_REQ 0~CAPACIDAD 1~DEPOSITO 1
    capacity 30001 is out of range | VERTICES 2~ARISTAS_REQ 0~CAPACIDAD 30001~DEPOSITO 1
    depot 3 is out of range | VERTICES 2~ARISTAS_REQ 0~CAPACIDAD 1~DEPOSITO 3
"""

# What is written for words that are no command, and such words. `_` is the empty word.
USAGE = """usage: carp solve FILE CERT [--turns N] [--seed N]
       carp check FILE CERT
       carp sheet FILE CERT
       carp make FILE [--seed N]
       carp drill [--turns N] [--seed N]
       carp upgrade FILE CERT NEWCERT
       carp postman FILE
       carp fleet FILE [--turns N]
       carp edit FILE CERT EDITS NEWFILE NEWCERT
       carp improve FILE CERT NEWCERT [--turns N] [--seed N]
"""

NO_COMMANDS = """
    solve
    solve file
    solve file file
    solve file _
    solve -file cert
    solve file -
    solve file cert other
    solve file cert --turns
    solve file cert --turns 0
    solve file cert --turns 1048577
    solve file cert --turns=9
    solve file cert --turns _
    solve file cert --turns -9
    solve file cert --turns +9
    solve file cert --turns 9a
    solve file cert --seed 0000000000000000001
    solve file cert --seed 1 --seed 1
    solve file cert --seed 1 --turns 1 --seed 1
    solve file cert --Seed 1
    solve --seed 1 file cert
    solve file --seed 1 cert
    solve file cert --
    solve file cert --help
    --help
    help
    help solve
    Solve file cert
    make
    make -file
    make file other
    make file --turns 1
    make file --seed 1 --seed 1
    make --seed 1 file
    sheet file
    sheet file file
    sheet file cert --seed 1
    drill file
    drill --turns 0
    drill --turns 1 --turns 1
    drill --seed
    postman
    postman file other
    postman file --turns 1
    fleet
    fleet file --turns 0
    fleet file --turns 1048577
    fleet file --seed 1
    fleet file --turns 1 --turns 1
    edit file cert edits new
    edit file cert edits new renewed more
    edit file cert edits new new
    edit file cert edits new cert
    edit file cert edits new renewed --seed 1
    improve
    improve file cert
    improve file cert cert
    improve file cert file
    improve file file new
    improve file cert new other
    improve file cert _
    improve file cert --turns 9
    improve file cert new --turns 0
    improve file cert new --turns 1048577
    improve file cert new --seed 1 --seed 1
    improve --turns 9 file cert new
    check file
    check file file
    check file cert other
    check -file cert
    check file cert --seed 1
    check file cert --turns 1
    upgrade file cert
    upgrade file cert file
    upgrade file cert cert
    upgrade file cert new other
    upgrade file cert new --seed 1
"""

# Words that are a command of the street, each of which is done.
COMMANDS = """
    solve file cert
    solve file cert --turns 1
    solve file cert --seed 7
    solve file cert --turns 1 --seed 7
    solve file cert --seed 007 --turns 001
    solve file cert --turns 1048576 --seed 999999999999999999
    solve file cert --turns 1 --seed 0
    check file cert
    sheet file cert
    upgrade file cert new
    postman file
    fleet file
    fleet file --turns 1048576
    drill --seed 7 --turns 1
    improve file cert new --turns 1
    improve file cert new --seed 7
    improve file cert new --seed 007 --turns 1
    make help --seed 007
    solve file b=c
"""
