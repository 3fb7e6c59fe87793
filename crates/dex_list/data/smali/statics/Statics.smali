.class public Ls/Statics;
.super Ljava/lang/Object;

.field static a:Z = true
.field static b:B = -0x1t
.field static c:C = 'x'
.field static d:D = 1.5
.field static e:Ljava/lang/String; = "static value"
.field static f:Ljava/lang/Object; = null
.field g:[Z

.method static move()V
    .registers 6
    sget-boolean v0, Ls/Statics;->a:Z
    sput-boolean v0, Ls/Statics;->a:Z
    sget-byte v0, Ls/Statics;->b:B
    sget-char v0, Ls/Statics;->c:C
    sget-wide v2, Ls/Statics;->d:D
    sput-wide v2, Ls/Statics;->d:D
    sget-object v1, Ls/Statics;->e:Ljava/lang/String;
    sput-object v1, Ls/Statics;->f:Ljava/lang/Object;
    return-void
.end method

.method final take()V
    .registers 3
    iget-object v0, p0, Ls/Statics;->g:[Z
    iput-object v0, p0, Ls/Statics;->g:[Z
    return-void
.end method
