int putchar(int);int main(void){putchar(0);putchar(127);putchar(128);putchar(255);return 255;}
