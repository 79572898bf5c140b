Bool
Bool
