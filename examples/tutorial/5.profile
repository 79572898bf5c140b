Bool
Bool
Bool
Bool
Bool
