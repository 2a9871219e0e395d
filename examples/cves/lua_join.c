/* Runs a script that makes a variable of a function refer to itself, and uses it. */
#include <stdio.h>
#include "lauxlib.h"
#include "lua.h"
#include "lualib.h"

static const char script[] =
    "local f = load(function() end)\n"
    "local kept = {}\n"
    "kept[0] = string.rep('A', 512)\n"
    "debug.upvaluejoin(f, 1, f, 1)\n"
    "print(debug.getupvalue(f, 1))\n";

int main(void)
{
    lua_State *state = luaL_newstate();
    if (state == NULL)
        return 2;
    luaL_openlibs(state);
    if (luaL_dostring(state, script))
        puts(lua_tostring(state, -1));
    lua_close(state);
    return 0;
}
