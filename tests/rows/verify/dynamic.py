"""Methods with `invokedynamic` and dynamic constants, and what `classck verify` says of each, with --dynamic and without: JVMS 4.4.10 and 4.10.1.9."""
from dataclasses import replace

from rows.known import KNOWN_OF_CALL_SITES
from rows.verify.references import Constants, assembled
from tools.assembler import STATIC
from tools.class_k import K, code_f, method_f

STRING = "Ljava/lang/String;"

# Descriptor, max_stack and max_locals; code; verdict with --dynamic, and without.
ROWS = f"""
# strings that are joined, lambdas with captured values, method references, the toString of a record, and a switch on patterns
(I{STRING}J){STRING} 4 4 | iload_0; aload_1; lload_2; invokedynamic [site makeConcatWithConstants (I{STRING}J){STRING}] 0 0; areturn | verified | refused 60 at 3
({STRING}I)Ljava/lang/Runnable; 2 2 | aload_0; iload_1; invokedynamic [site run ({STRING}I)Ljava/lang/Runnable;] 0 0; areturn | verified | refused 60 at 2
()Ljava/lang/Runnable; 1 0 | invokedynamic [site run ()Ljava/lang/Runnable;] 0 0; areturn | verified | refused 60 at 0
(LK;){STRING} 1 1 | aload_0; invokedynamic [site toString (LK;){STRING}] 0 0; areturn | verified | refused 60 at 1
(Ljava/lang/Object;)I 2 1 | aload_0; iconst_0; invokedynamic [site typeSwitch (Ljava/lang/Object;I)I] 0 0; ireturn | verified | refused 60 at 2
# arguments and results of each width; a call site has no receiver
()V 0 0 | invokedynamic [site f ()V] 0 0; return | verified | refused 60 at 0
(J)D 2 2 | lload_0; invokedynamic [site f (J)D] 0 0; dreturn | verified | refused 60 at 1
(LA;)[I 1 1 | aload_0; invokedynamic [site f (LA;)[I] 0 0; areturn | verified | refused 60 at 1
(LA;I)V 2 2 | aload_0; iload_1; invokedynamic [site f (I)V] 0 0; pop; return | verified | refused 60 at 2
()V 1 0 | invokedynamic [site f (LA;)V] 0 0; return | refused 61 at 0 | refused 60 at 0
(I)V 1 1 | iload_0; invokedynamic [site f (II)V] 0 0; return | refused 61 at 1 | refused 60 at 1
(I)V 1 1 | iload_0; invokedynamic [site f (LA;)V] 0 0; return | refused 62 at 1 | refused 60 at 1
(LA;I)V 2 2 | aload_0; iload_1; invokedynamic [site f (ILA;)V] 0 0; return | refused 62 at 2 | refused 60 at 2
(LB;)V 1 1 | aload_0; invokedynamic [site f (LA;)V] 0 0; return | refused 62 at 1 | refused 60 at 1
()I 1 0 | invokedynamic [site f ()J] 0 0; ireturn | refused 65 at 0 | refused 60 at 0
()I 2 0 | invokedynamic [site f ()J] 0 0; ireturn | refused 62 at 5 | refused 60 at 0
()LA; 1 0 | invokedynamic [site f ()I] 0 0; areturn | refused 62 at 5 | refused 60 at 0
()V 0 0 | invokedynamic [site f ()I] 0 0; return | refused 65 at 0 | refused 60 at 0
# other constants, and names that are none of a call site
()V 1 0 | invokedynamic [method A f ()V] 0 0; return | refused 66 at 0 | refused 60 at 0
()V 1 0 | invokedynamic [computed I] 0 0; return | refused 66 at 0 | refused 60 at 0
()V 1 0 | invokedynamic 99 0 0; return | refused 66 at 0 | refused 60 at 0
()V 1 0 | invokedynamic [site <init> ()V] 0 0; return | refused 66 at 0 | refused 60 at 0
()V 1 0 | invokedynamic [site <clinit> ()V] 0 0; return | refused 66 at 0 | refused 60 at 0
# dynamic constants: of one unit by ldc and ldc_w, of two by ldc2_w
()I 1 0 | ldc [computed I]; ireturn | verified | refused 60 at 0
()Z 1 0 | ldc [computed Z]; ireturn | verified | refused 60 at 0
()F 1 0 | ldc_w [computed F]; freturn | verified | refused 60 at 0
()LA; 1 0 | ldc [computed LA;]; areturn | verified | refused 60 at 0
()[J 1 0 | ldc [computed [J]; areturn | verified | refused 60 at 0
()LA; 1 0 | ldc [computed LB;]; areturn | refused 62 at 2 | refused 60 at 0
()J 2 0 | ldc2_w [computed J]; lreturn | verified | refused 60 at 0
()D 2 0 | ldc2_w [computed D]; dreturn | verified | refused 60 at 0
()J 2 0 | ldc [computed J]; lreturn | refused 66 at 0 | refused 60 at 0
()V 2 0 | ldc_w [computed D]; pop2; return | refused 66 at 0 | refused 60 at 0
()V 2 0 | ldc2_w [computed I]; pop2; return | refused 66 at 0 | refused 60 at 0
()V 2 0 | ldc2_w [computed LA;]; pop2; return | refused 66 at 0 | refused 60 at 0
()J 1 0 | ldc2_w [computed J]; lreturn | refused 65 at 0 | refused 60 at 0
# what is refused for another reason stays so
()V 1 0 | ldc [site f ()V]; pop; return | refused 66 at 0 | refused 66 at 0
()V 0 0 | jsr 3; return | refused 60 at 0 | refused 60 at 0
"""


def dynamic():
    """A name for each method, the command, its class and the known ones, and its verdict by that command."""
    for line in ROWS.strip().splitlines():
        if line.startswith("#"):
            continue
        sizes, code, judged, refused = (it.strip() for it in line.split("|"))
        descriptor, stack, variables = sizes.split()
        constants = Constants(descriptor)
        method = method_f(code_f(assembled(code, constants), stack=int(stack), variables=int(variables)), flags=STATIC)
        attributes = [constants.bootstraps()]
        files = [replace(K, constants=constants.items, methods=[method], attributes=attributes, major=55).data(), *KNOWN_OF_CALL_SITES]
        for command, verdict in (("verify --dynamic", judged), ("verify", refused)):
            yield f"{sizes} {code}", command, files, f"method f {descriptor} {verdict}"
            alone = "play verified" if verdict == "verified" else f"class 1 method f {descriptor} {verdict}"
            yield f"{sizes} {code}", command.replace("verify", "play"), files, alone
