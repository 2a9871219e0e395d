/* Runs the Lua program that follows the first line of standard input, with the first number of
   that line as the global `rounds`. The sum is that of the text which the program returns. */
#include <stdlib.h>
#include "driver.h"
#include "lauxlib.h"
#include "lua.h"
#include "lualib.h"

enum { SOURCE = 65536 };

static const luaL_Reg LIBRARIES[] = {
    {LUA_GNAME, luaopen_base}, {LUA_TABLIBNAME, luaopen_table}, {LUA_STRLIBNAME, luaopen_string},
    {LUA_COLIBNAME, luaopen_coroutine},
};

static size_t read_source(char *source)
{
    size_t count = 0;
    ssize_t more;
    while ((more = read(0, source + count, SOURCE - count)) > 0)
        count += (size_t)more;
    return count;
}

int main(void)
{
    unsigned long rounds = read_number();
    (void)read_number();
    char *source = malloc(SOURCE);
    size_t count = read_source(source);
    lua_State *state = luaL_newstate();
    if (!state)
        return 2;
    for (size_t i = 0; i < sizeof LIBRARIES / sizeof *LIBRARIES; i++)
        luaL_requiref(state, LIBRARIES[i].name, LIBRARIES[i].func, 1);
    lua_settop(state, 0);
    lua_pushinteger(state, (lua_Integer)rounds);
    lua_setglobal(state, "rounds");
    if (luaL_loadbufferx(state, source, count, "program", "t") != LUA_OK ||
        lua_pcall(state, 0, 1, 0) != LUA_OK)
        return 3;
    const char *text = lua_tolstring(state, -1, &count);
    unsigned long sum = text ? sum_bytes(SUM_START, text, count) : 0;
    lua_close(state);
    return write_sum(sum);
}
