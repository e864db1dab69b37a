# A headless Chromium that tests drive through its DevTools protocol: JSON texts, each with a zero byte behind it, through two
# pipes. Read by tests/page, in the folder in which its files are. No function here may be called in a subshell: what is heard
# there is lost.
answer=       # what the last call answered
value=        # of what was evaluated last
tab=          # the one that is open, by the id that its calls name
loaded=       # whether a page was loaded since this was emptied
complaints=   # what the browser said that no page should make it say
calls=0

# open_browser: starts it, with one tab; the file browser.log has what it says
open_browser() {
    local target
    rm -rf profile to-browser from-browser
    mkfifo to-browser from-browser
    chromium --headless --no-sandbox --disable-gpu --disable-dev-shm-usage --no-first-run --disable-extensions \
        --disable-background-networking --user-data-dir="$PWD/profile" --remote-debugging-pipe about:blank \
        3<to-browser 4>from-browser >browser.log 2>&1 &
    browser=$!
    exec 5>to-browser 6<from-browser
    tab= complaints=
    call Target.createTarget '{"url":"about:blank"}'
    target=$(jq -r .result.targetId <<<"$answer")
    call Target.attachToTarget "{\"targetId\":\"$target\",\"flatten\":true}"
    tab=$(jq -r .result.sessionId <<<"$answer")
    call Page.enable
    call Log.enable
    call Runtime.enable
}

close_browser() {
    tab=
    call Browser.close || kill "$browser" 2>/dev/null || :
    exec 5>&- 6<&-
    wait "$browser" 2>/dev/null || :
    browser=
}

# call METHOD [PARAMETERS]: waits for the answer, and hears what happens meanwhile
call() {
    calls=$((calls + 1))
    printf '{"id":%d,"method":"%s","params":%s%s}\0' $calls "$1" "${2:-{\}}" "${tab:+,\"sessionId\":\"$tab\"}" >&5
    until hear && [[ $answer == "{\"id\":$calls,"* ]]; do
        [ -n "$answer" ] || return 1
    done
}

# hear: the next text. A script that ran, failed or was forbidden, a dialog, or something that was not loaded is a complaint.
hear() {
    IFS= read -r -t 60 -d '' answer <&6 || { answer= && return 1; }
    case $answer in
    '{"method":"Page.loadEventFired"'*) loaded=1 ;;
    '{"method":"Page.javascriptDialogOpening"'* | '{"method":"Log.entryAdded"'* | '{"method":"Runtime.exceptionThrown"'* | \
        '{"method":"Runtime.consoleAPICalled"'*) complaints+=$answer$'\n' ;;
    esac
}

# load FILE: shows a file of this folder, and waits until it is loaded
load() {
    loaded=
    call Page.navigate "{\"url\":\"file://$PWD/$1\"}"
    while [ -z "$loaded" ]; do
        hear || return 1
    done
}

# evaluate EXPRESSION: its value, or why it has none, is then in value. The page's policy holds for the page alone.
evaluate() {
    call Runtime.evaluate "$(jq -cn --arg text "$1" '{expression: $text, returnByValue: true, awaitPromise: true}')"
    value=$(jq -r '.result | .exceptionDetails.exception.description // .result.value' <<<"$answer")
}

# screen WIDTH HEIGHT: of so many pixels
screen() {
    call Emulation.setDeviceMetricsOverride "{\"width\":$1,\"height\":$2,\"deviceScaleFactor\":1,\"mobile\":false}"
}

# press KEY CODE [TEXT]: presses a key, by its name and number
press() {
    local key="\"key\":\"$1\",\"code\":\"$1\",\"windowsVirtualKeyCode\":$2"
    call Input.dispatchKeyEvent "{\"type\":\"keyDown\",$key${3:+,\"text\":\"$3\"}}"
    call Input.dispatchKeyEvent "{\"type\":\"keyUp\",$key}"
}

# print_to FILE: prints the page on A4
print_to() {
    call Page.printToPDF '{"paperWidth":8.27,"paperHeight":11.69,"preferCSSPageSize":true}'
    jq -r .result.data <<<"$answer" | base64 -d >"$1"
}
