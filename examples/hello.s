; The letter A to the console's transmit register, and then a halt.
    MTPR I^#^X41,S^#35
    HALT
