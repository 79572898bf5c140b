Bool
Bool
Bool
