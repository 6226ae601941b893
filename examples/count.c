int main(void){out(1);out(2);out(3);return 0;}
