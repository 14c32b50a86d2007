int putchar(int);int main(void){putchar(72);return 0;}
