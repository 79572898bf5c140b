S(Q(Int))
