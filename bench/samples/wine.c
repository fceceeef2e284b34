/* Has Wine's dbghelp write a dump: wine.exe FILE FLAGS crash|child
 *
 * FLAGS is a MINIDUMP_TYPE. `crash` reads address 16 in a thread of its own, and the filter for exceptions that nobody
 * handles writes the dump of its own process. `child` starts this program again, without words, and writes the dump of
 * that process. */
#include <stdlib.h>
#include <string.h>
#include <windows.h>
#include <dbghelp.h>

static const char *file;
static MINIDUMP_TYPE flags;

static int write_dump(HANDLE process, DWORD id, MINIDUMP_EXCEPTION_INFORMATION *exception)
{
    static char bytes[] = "a stream of a user";
    static wchar_t comment[] = L"a comment";
    MINIDUMP_USER_STREAM streams[] = {
        {CommentStreamW, sizeof comment, comment},
        {LastReservedStream + 1, sizeof bytes, bytes},
    };
    MINIDUMP_USER_STREAM_INFORMATION given = {2, streams};
    HANDLE out = CreateFileA(file, GENERIC_WRITE, 0, NULL, CREATE_NEW, 0, NULL);
    return MiniDumpWriteDump(process, id, out, flags, exception, exception ? &given : NULL, NULL) ? 0 : 1;
}

static LONG WINAPI on_exception(EXCEPTION_POINTERS *pointers)
{
    MINIDUMP_EXCEPTION_INFORMATION exception = {GetCurrentThreadId(), pointers, FALSE};
    ExitProcess(write_dump(GetCurrentProcess(), GetCurrentProcessId(), &exception));
}

static DWORD WINAPI crash(void *address)
{
    return *(volatile DWORD *)address;
}

int main(int count, char **words)
{
    if (count == 1) {
        Sleep(INFINITE);
    }
    file = words[1];
    flags = strtoul(words[2], NULL, 0);
    if (strcmp(words[3], "crash") == 0) {
        SetUnhandledExceptionFilter(on_exception);
        HANDLE thread = CreateThread(NULL, 65536, crash, (void *)16, STACK_SIZE_PARAM_IS_A_RESERVATION, NULL);
        WaitForSingleObject(thread, INFINITE);
        return 2;
    }
    STARTUPINFOA startup = {sizeof startup};
    PROCESS_INFORMATION child;
    CreateProcessA(words[0], NULL, NULL, NULL, FALSE, 0, NULL, NULL, &startup, &child);
    Sleep(2000);
    int status = write_dump(child.hProcess, child.dwProcessId, NULL);
    TerminateProcess(child.hProcess, 0);
    return status;
}
