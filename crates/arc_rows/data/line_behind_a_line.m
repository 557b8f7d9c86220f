int x
 #include a