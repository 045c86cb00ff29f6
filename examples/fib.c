/* mypyc subset 1 */
int64_t CPyDef_fib(int64_t cpy_n) {
    int64_t cpy_step;
    int64_t cpy_a;
    int64_t cpy_b;
    char cpy_small;
    CPyTurn();
    cpy_step = 2;
    cpy_small = CPyInt64_Lt(cpy_n, cpy_step);
    if (cpy_small) goto CPyL0; else goto CPyL1;
CPyL0: ;
    return cpy_n;
CPyL1: ;
    cpy_step = 1;
    cpy_a = CPyInt64_Subtract(cpy_n, cpy_step);
    cpy_b = CPyInt64_Subtract(cpy_a, cpy_step);
    cpy_a = CPyDef_fib(cpy_a);
    cpy_b = CPyDef_fib(cpy_b);
    cpy_a = CPyInt64_Add(cpy_a, cpy_b);
    return cpy_a;
}
char CPyModule(void) {
    int64_t cpy_n;
    PyObject *cpy_text;
    char cpy_end;
    cpy_n = 20;
    cpy_n = CPyDef_fib(cpy_n);
    cpy_text = CPyInt64_Str(cpy_n);
    CPy_Write(cpy_text);
    CPy_DECREF(cpy_text);
    cpy_text = CPyStr_Literal("\n");
    CPy_Write(cpy_text);
    CPy_DECREF(cpy_text);
    cpy_end = 1;
    return cpy_end;
}
