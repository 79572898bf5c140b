Bool
Bool
Bool
Bool
