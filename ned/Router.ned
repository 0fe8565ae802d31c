// Sends each message on through the port that the first byte of its payload names, without that
// byte. A message without a payload has arrived, and its length is emitted.
simple Router
{
    parameters:
        @display("i=abstract/router");
        @signal[rx](type=long);                 // the length in bits of a message that ends here
        @statistic[rx](title="bits received"; unit=b; record=count,sum,vector);
    gates:
        inout port[];
}
