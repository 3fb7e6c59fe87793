.class Lc/Inits;
.super Ljava/lang/Object;

.field static made:Lc/Inits;

.method static constructor <clinit>()V
    .registers 1
    new-instance v0, Lc/Inits;
    invoke-direct {v0}, Lc/Inits;-><init>()V
    sput-object v0, Lc/Inits;->made:Lc/Inits;
    return-void
.end method

.method private constructor <init>()V
    .registers 1
    invoke-direct {p0}, Ljava/lang/Object;-><init>()V
    return-void
.end method
