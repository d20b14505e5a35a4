# Java: the package for Java 8 over JNA, and its class for Java 22 where there is such a JDK; its tests; javac and
# javadoc without a warning. Sourced by tests/runs/languages.sh.

# newer_jdk : the folder of a JDK of version 22 or later, the newest
newer_jdk() {
    local folder version
    for folder in "${JAVA_HOME:-}" /usr/lib/jvm/*; do
        [ -x "$folder/bin/javac" ] || continue
        version=$("$folder/bin/javac" -version 2>&1 | sed 's/[^0-9]*\([0-9]*\).*/\1/')
        [ "$version" -lt 22 ] || echo "$version $folder"
    done | sort -n | tail -n 1 | cut -d' ' -f2
}

# java_version JAVA : the first number of the version of a Java
java_version() {
    "$1" -version 2>&1 | sed -n '1s/[^"]*"\([0-9]*\).*/\1/p'
}

sources() {
    find "$room/java/src/$1" -name '*.java'
}

# build_java : the classes of the copy of the package. (A newer compiler says that Java 8 is old.)
build_java() {
    mapfile -t files < <(sources main/java)
    javac --release 8 -Xlint:all,-options -Werror -cp "$jna" -d "$room/classes/8" "${files[@]}"
}

# build_more : its class for Java 22, its tests, and the answers
build_more() {
    mapfile -t files < <(sources test)
    javac -Xlint:all -Werror -cp "$room/classes/8:$junit" -d "$room/classes/tests" "${files[@]}" Answers.java Told.java
    [ -n "$jdk" ] || return 0
    mapfile -t files < <(sources main/java22)
    "$jdk/bin/javac" --release 22 -Xlint:all -Werror -cp "$room/classes/8" -d "$room/classes/22" "${files[@]}"
}

# says_told REASON COMMAND.. : what the package says of libraries that aren't its own, by a command that runs a class; the
# reason is why one of something else isn't, unless JNA says that
says_told() {
    local other
    other=$(gcc -print-file-name=libm.so.6)
    quiet 'what the package says of other libraries' "${@:2}" Told "$room/none.so" "$other" "$room/old.so" "$told" "$1"
}

# with_java FOLDER CLASSES WORD.. : runs a class by the Java of a folder, over these classes
with_java() {
    local folder=$1 classes=$2
    shift 2
    "${folder:+$folder/bin/}java" -Durlcheck.library="$library/lib/liburlcheck.so" \
        -cp "$classes:$room/classes/8:$room/classes/tests:$junit" "$@"
}

jna=/usr/share/java/jna.jar
junit=/usr/share/java/junit4.jar:/usr/share/java/hamcrest-core.jar
jdk=$(newer_jdk)
if here Java javac && with Java 'libjna-java or junit4' test -e $jna -a -e "${junit%%:*}"; then
    copied java
    quiet 'javac' build_java
    quiet 'javac for the tests and Java 22' build_more
    answering "Java $(java_version java) over JNA" with_java '' "$jna" Answers
    quiet 'the tests of the package over JNA' with_java '' "$jna" org.junit.runner.JUnitCore \
        example.yuccaeave.urlcheck.UrlCheckTest
    gcc -std=c99 -shared -fPIC -I "$include" -DVERSION=399 told.c -o "$room/old.so"
    says_told '' with_java '' "$jna"
    mapfile -t files < <(sources main/java)
    quiet 'javadoc' javadoc -quiet -Xdoclint:all -Werror -cp "$jna" -d "$room/javadoc" "${files[@]}"
    if with 'Java over java.lang.foreign' 'a JDK of version 22 or later' test -n "$jdk"; then
        foreign=(with_java "$jdk" "$room/classes/22" --enable-native-access=ALL-UNNAMED)
        answering "Java $(java_version "$jdk/bin/java") over java.lang.foreign" \
            "${foreign[@]}" Answers
        quiet 'the tests of the package over java.lang.foreign' "${foreign[@]}" org.junit.runner.JUnitCore \
            example.yuccaeave.urlcheck.UrlCheckTest
        says_told 'it has no function urlcheck_version' "${foreign[@]}"
    fi
    has_version java/pom.xml '<version>@</version>'
    package=src/main/java/example/yuccaeave/urlcheck
    spoiled Java build_java java $package/Answer.java \
        's/number(places), number(places + 8), index/number(places + 8), number(places), index/' \
        with_java '' "$jna" Answers
    spoiled Java build_java java $package/Utf8.java 's/codePoint < 0x10000 ? 3 : 4/codePoint < 0x10000 ? 3 : 3/' \
        with_java '' "$jna" Answers
    guide java java guide_java Program.java
    as_told java guide_java
    if roomy 'texts in Java that no array holds' 9; then
        quiet 'javac for long texts' javac -Xlint:all -Werror -cp "$room/classes/8" -d "$room/classes/tests" \
            LongTexts.java
        quiet 'texts that no array holds' with_java '' "$jna" -Xmx5g LongTexts
        echo 'languages: texts that no array holds are errors of Java'
    fi
fi
