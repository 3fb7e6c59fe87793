.class public La/A;
.super Ljava/lang/Object;

.field public static a:I
.field private static final b:J = 0x7L
.field static volatile c:Ljava/lang/String;
.field static z:[[B
.field protected d:Z
.field public transient e:[La/A;
.field private final y:D
